"""Which characters are escaped, and how. What is unseen is asked of Python's Unicode, and of lists that are written here."""

import json
import time
import unicodedata
import unittest

from rbacaudit_kubectl import escapes, terminal

# Ignorable characters that are of no such category, and blanks of Braille and Hangul; Unicode 15 has more controls of hieroglyphs.
IGNORABLE = {0x34f, 0x115f, 0x1160, 0x17b4, 0x17b5, 0x180b, 0x180c, 0x180d, 0x180f, 0x2065, 0x2800, 0x3164, 0xffa0, *range(0xfe00, 0xfe10),
             *range(0xfff0, 0xfff9), *range(0x13430, 0x13440), *range(0xe0000, 0xe1000)}
# Bytes that are no UTF-8, and what they become: cut short, too long for their number, a surrogate, past the last character.
NO_UTF8 = [(b'a\xffb', r'a\xffb'), (b'\xe2\x80', r'\xe2\x80'), (b'\xe2\x80x', r'\xe2\x80x'), (b'\xc0\x80', r'\xc0\x80'), (b'\x9b2K', r'\x9b2K'),
           (b'\xe0\x80\xaf', r'\xe0\x80\xaf'), (b'\xed\xa0\x80', r'\xed\xa0\x80'), (b'\xf4\x90\x80\x80', r'\xf4\x90\x80\x80'),
           (b'\xf5\x80\x80\x80', r'\xf5\x80\x80\x80'), (b'\xf0\x8f\xbf\xbf', r'\xf0\x8f\xbf\xbf'), (b'\xc3\xa9\xa9', 'é\\xa9')]


def is_unseen(one):
    return one != ' ' and unicodedata.category(one) in ('Cc', 'Cf', 'Cs', 'Zl', 'Zp', 'Zs') or ord(one) in IGNORABLE


def hexed(one):
    return ''.join('\\x%02x' % byte for byte in one.encode(errors='surrogatepass' if not '\udc80' <= one <= '\udcff' else 'surrogateescape'))


class Escapes(unittest.TestCase):
    def test_every_character(self):
        # (Python 3.9 to 3.11 don't know each character of Unicode 15)
        is_older = int(unicodedata.unidata_version.partition('.')[0]) < 15
        for one in map(chr, range(0x20, 0x110000)):
            if is_older and unicodedata.category(one) == 'Cn':
                continue
            wanted = hexed(one) if is_unseen(one) else one
            if escapes.escaped(one) != wanted:
                self.fail('U+%04X: %r' % (ord(one), escapes.escaped(one)))

    def test_lines_keep_tabs_and_newlines(self):
        self.assertEqual(escapes.escaped('a\tb\n'), 'a\tb\n')

    def test_no_utf8(self):
        for data, wanted in NO_UTF8:
            self.assertEqual(escapes.escaped(escapes.text_of(data)), wanted)
            self.assertEqual(escapes.bytes_of(escapes.text_of(data)), data)

    def test_json_means_the_same(self):
        value = ''.join(map(chr, range(0x110000)))
        text = escapes.escaped(json.dumps(value, ensure_ascii=False), as_json=True)
        self.assertEqual(json.loads(text), json.loads(json.dumps(value)))
        self.assertEqual({one for one in text if is_unseen(one)}, set())

    def test_titles(self):
        self.assertEqual(escapes.escape_title('a\u202eb\x07 c\u3164'), 'a[U+202E]b[U+0007] c[U+3164]')

    def test_messages_are_one_line(self):
        self.assertEqual(escapes.on_one_line('a\n::error::b\r\x1b[2J\u202e\tc'), 'a\\n::error::b??[2J\\xe2\\x80\\xae\tc')
        self.assertEqual(escapes.printable('a\nb\x00'), 'a\nb?')

    def test_linear(self):
        began = time.process_time()
        for text in ('\u202e' * 100_000, '\U000e0041' * 100_000, '\udcff' * 100_000):
            escapes.escaped(text)
            escapes.escaped(text, as_json=True)
            escapes.on_one_line(text)
        self.assertLess(time.process_time() - began, 9)


class Colors(unittest.TestCase):
    def test_words_of_color(self):
        self.assertTrue(terminal.has_colors('always', {'NO_COLOR': '1'}))
        self.assertFalse(terminal.has_colors('never', {'TERM': 'xterm'}))


if __name__ == '__main__':
    unittest.main()
