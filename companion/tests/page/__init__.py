"""Tests of report pages, and of the page that checks them."""
