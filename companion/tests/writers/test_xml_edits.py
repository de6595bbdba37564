"""Changing an XML file in place: what is not changed keeps its bytes."""

from xml.etree import ElementTree

import pytest
from hypothesis import given, settings
from hypothesis import strategies as st

from pert_companion.model.errors import InputError
from pert_companion.writers.xml_edits import XmlFile

FILE = """<?xml version="1.0" encoding="{encoding}"?>
<!-- made by hand -->
<p:Plan xmlns:p="urn:plan" xmlns="urn:other"  view='a>b'>
  <p:Task id="1"   name='Dig &amp; pour' ><p:Days>4</p:Days><p:Note/></p:Task>
  <p:Task id="2" name="Übergabe"/>
  <![CDATA[<p:Task id="3"/>]]>
</p:Plan>
<!-- the end -->
"""
ENCODINGS = ("utf-8", "iso-8859-1", "utf-16-le")
PLAN = "{urn:plan}"


def file_in(encoding: str) -> bytes:
    """Returns the file in a character set; UTF-16 begins with a mark."""
    named = "utf-16" if encoding == "utf-16-le" else encoding
    mark = "\ufeff" if encoding == "utf-16-le" else ""
    return (mark + FILE.format(encoding=named)).encode(encoding)


@pytest.mark.parametrize("encoding", ENCODINGS)
def test_each_change(encoding: str) -> None:
    """Texts, attributes and elements that are changed, added and removed; the rest stays."""
    data = file_in(encoding)
    xml = XmlFile(data, "plan.xml")
    first, second = xml.root.findall(f"{PLAN}Task")
    days, note = first
    assert xml.prefix_of(first) == "p:"
    xml.set_text(days, "5")
    xml.set_text(days, "3 < 4")
    xml.set_text(note, "new")
    xml.set_attribute(first, "name", 'Dig "deep"')
    xml.add_attribute(second, "days", "2")
    xml.insert_after(second, "<p:Task id='4'/>")
    xml.add_text(first, 1, f"{PLAN}Cost", "7")
    expected = data.decode(encoding)
    for before, after in (
        ("<p:Days>4</p:Days><p:Note/>", "<p:Days>3 &lt; 4</p:Days><p:Cost>7</p:Cost><p:Note/>"),
        ("<p:Note/>", "<p:Note>new</p:Note>"),
        ("'Dig &amp; pour'", "'Dig \"deep\"'"),
        ('name="Übergabe"/>', 'name="Übergabe" days="2"/><p:Task id=\'4\'/>'),
    ):
        assert expected.count(before) == 1
        expected = expected.replace(before, after)
    assert xml.changed().decode(encoding) == expected
    assert [each.text for each in first] == ["3 < 4", "7", "new"]


@pytest.mark.parametrize("encoding", ENCODINGS)
def test_no_change(encoding: str) -> None:
    """A file without changes is the same."""
    data = file_in(encoding)
    assert XmlFile(data, "plan.xml").changed() == data


def test_removed_and_added_at_the_end() -> None:
    """White space goes with what is removed, and comes with what is added."""
    data = b"<a>\n  <b>1</b>\n  <c>2</c>\n</a>"
    xml = XmlFile(data, "a.xml")
    xml.remove(xml.root, xml.root[0])
    xml.add_text(xml.root, 1, "d", "3")
    assert xml.changed() == b"<a>\n  <c>2</c>\n  <d>3</d>\n</a>"
    xml = XmlFile(data, "a.xml")
    xml.add_text(xml.root, 0, "d", "3")
    assert xml.changed() == b"<a>\n  <d>3</d>\n  <b>1</b>\n  <c>2</c>\n</a>"


def test_added_next_to_what_was_added() -> None:
    """Elements that are added come in the order of the tree, with their last texts."""
    xml = XmlFile(b"<a><b>1</b><c>2</c></a>", "a.xml")
    for place, name in ((1, "y"), (1, "x"), (3, "z"), (5, "e"), (6, "f")):
        xml.add_text(xml.root, place, name, name)
    xml.set_text(xml.root[2], "new")
    names = "<b>1</b><x>x</x><y>new</y><z>z</z><c>2</c><e>e</e><f>f</f>"
    assert xml.changed().decode() == f"<a>{names}</a>"
    assert [each.tag for each in xml.root] == ["b", "x", "y", "z", "c", "e", "f"]


NAMES = st.sampled_from(("a", "b", "long-name"))
TEXTS = st.text("ab<&>\"' \n\u00fc\u6f22", max_size=5)


@st.composite
def trees(draw: st.DrawFn, depth: int = 3) -> ElementTree.Element:
    """Draws an element with attributes, texts and elements."""
    element = ElementTree.Element(draw(NAMES), draw(st.dictionaries(NAMES, TEXTS, max_size=2)))
    element.text = draw(TEXTS)
    if depth:
        element.extend(draw(st.lists(trees(depth - 1), max_size=3)))
    for child in element:
        child.tail = draw(TEXTS)
    return element


@settings(max_examples=40)
@given(st.data())
def test_one_text_of_any_tree(data: st.DataObject) -> None:
    """A text that is set is the only difference between the trees."""
    tree = data.draw(trees())
    before = ElementTree.tostring(tree, encoding="utf-8")
    xml = XmlFile(before, "a.xml")
    leaves = [number for number, each in enumerate(xml.root.iter()) if not len(each)]
    chosen, text = data.draw(st.sampled_from(leaves)), data.draw(TEXTS)
    xml.set_text(list(xml.root.iter())[chosen], text)
    expected = ElementTree.fromstring(before)
    list(expected.iter())[chosen].text = text
    found = ElementTree.fromstring(xml.changed())
    assert ElementTree.canonicalize(ElementTree.tostring(found)) == ElementTree.canonicalize(
        ElementTree.tostring(expected)
    )


@pytest.mark.parametrize("data", (b"", b"<a", b"<!DOCTYPE a [<!ENTITY b 'c'>]><a>&b;</a>", b"\xff"))
def test_no_xml(data: bytes) -> None:
    """What is no harmless XML is refused in one line."""
    with pytest.raises(InputError) as caught:
        XmlFile(data, "a.xml")
    assert str(caught.value).startswith("a.xml: ") and "\n" not in str(caught.value)
