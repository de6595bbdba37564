// Measures how long a plain program takes for the text of a certificate: a pass over its line ends, and writing its numbers again.
//
//     plain CERTIFICATE [OUT]   reads the certificate and prints the processor time of a pass over its line ends; with OUT, takes lines as words
//                               and numbers, writes them to OUT through one buffer, and prints the processor time of the writing alone
//
// The text that it writes is compared with the one that it read. The pass is the function `line_ends` and the writing `write_lines`, so that
// `tests/speed/run.py --floor` counts the instructions of each alone.
#include <algorithm>
#include <charconv>
#include <cstdint>
#include <cstdio>
#include <cstring>
#include <ctime>
#include <fstream>
#include <sstream>
#include <string>
#include <string_view>
#include <vector>

struct Field {
    bool is_number;
    uint64_t number;
    std::string_view word;
};

static double since(std::clock_t begin) {
    return double(std::clock() - begin) / CLOCKS_PER_SEC;
}

static std::string read_all(const char *path) {
    std::ifstream in(path, std::ios::binary);
    std::ostringstream text;
    text << in.rdbuf();
    return std::move(text).str();
}

static Field field_of(std::string_view word) {
    uint64_t number = 0;
    auto end = std::from_chars(word.data(), word.data() + word.size(), number);
    bool whole = end.ec == std::errc() && end.ptr == word.data() + word.size() && (word.size() == 1 || word[0] != '0');
    return {whole, number, word};
}

class Writer {
public:
    explicit Writer(FILE *out) : out(out) { buffer.resize(65536); }
    void number(uint64_t value) {
        make_room(20);
        used = std::to_chars(buffer.data() + used, buffer.data() + buffer.size(), value).ptr - buffer.data();
    }
    void text(std::string_view piece) {
        make_room(piece.size());
        memcpy(buffer.data() + used, piece.data(), piece.size());
        used += piece.size();
    }
    void byte(char c) {
        make_room(1);
        buffer[used++] = c;
    }
    void flush() {
        fwrite(buffer.data(), 1, used, out);
        used = 0;
        fflush(out);
    }

private:
    void make_room(size_t bytes) {
        if (used + bytes > buffer.size()) {
            fwrite(buffer.data(), 1, used, out);
            used = 0;
        }
    }
    FILE *out;
    std::vector<char> buffer;
    size_t used = 0;
};

// A pass over the line ends.
__attribute__((noinline)) static size_t line_ends(const std::string &text) {
    size_t lines = 0;
    const char *at = text.data(), *end = at + text.size();
    while (const void *found = memchr(at, '\n', end - at)) {
        lines++;
        at = static_cast<const char *>(found) + 1;
    }
    return lines;
}

struct Lines {
    std::vector<Field> fields;
    std::vector<uint32_t> widths;
};

// Some lines as words and numbers, from this byte on. Moves the byte on to the next line.
static Lines next_lines(const std::string &text, size_t &from) {
    Lines lines;
    while (from < text.size() && lines.widths.size() < 100'000) {
        size_t to = std::min(text.find('\n', from), text.size());
        uint32_t width = 0;
        std::string_view line(text.data() + from, to - from);
        while (true) {
            size_t space = line.find(' ');
            lines.fields.push_back(field_of(line.substr(0, space)));
            width++;
            if (space == std::string_view::npos) break;
            line.remove_prefix(space + 1);
        }
        lines.widths.push_back(width);
        from = to + 1;
    }
    return lines;
}

__attribute__((noinline)) static void write_lines(Writer &writer, const Lines &lines) {
    const Field *field = lines.fields.data();
    for (uint32_t width : lines.widths) {
        for (uint32_t k = 0; k < width; k++, field++) {
            if (k) writer.byte(' ');
            if (field->is_number) writer.number(field->number);
            else writer.text(field->word);
        }
        writer.byte('\n');
    }
}

int main(int count, char **words) {
    if (count != 2 && count != 3) return 2;
    std::string text = read_all(words[1]);

    std::clock_t begin = std::clock();
    size_t lines = line_ends(text);
    double pass = since(begin), writing = 0, mega = text.size() / 1e6;
    printf("%.1f MB, %zu lines; line ends %.3f s, %.0f MB/s\n", mega, lines, pass, mega / pass);
    if (count == 2) return 0;

    FILE *out = fopen(words[2], "wb");
    if (!out) return 4;
    setvbuf(out, nullptr, _IONBF, 0);
    Writer writer(out);
    for (size_t from = 0; from < text.size();) {
        Lines next = next_lines(text, from);
        begin = std::clock();
        write_lines(writer, next);
        writing += since(begin);
    }
    writer.flush();
    fclose(out);
    printf("writing %.3f s, %.0f MB/s\n", writing, mega / writing);
    if (strcmp(words[2], "/dev/null") != 0 && read_all(words[2]) != text) {
        fprintf(stderr, "what was written is another text\n");
        return 1;
    }
    return 0;
}
