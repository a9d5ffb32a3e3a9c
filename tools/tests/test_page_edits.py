"""Edits of tables in the text: each changes its own values, keeps every comment, and is refused where it isn't
found."""
import tomllib
import unittest

from dolthrew_view.fault import Fault
from dolthrew_view.page import edits
from dolthrew_view.page.examples import examples
from dolthrew_view.page.steps import document_of, made
from dolthrew_view.page.tables import tables

JUNCTION = """# Before the keys.
version = 1   # of the file
name = "mill"
least_cycle = 40
greatest_cycle = 90

# The main road.
[[group]]
name = "main"   # both ways
min_green = 7 # seconds
amber = 3
red_amber = 2
start_lost = 2
end_gain = 1

[[group]]
name = 'side'
min_green = 6
amber = 3
red_amber = 2
start_lost = 2
end_gain = 1

[[lane]]
name = "main-1"
group = "main"
arrival = 540
saturation = 1_800
limit = 850

[[conflict]]
a = "main"
b = "side"
a_to_b = 5
b_to_a = 6
"""

INLINE = """version = 1
name = "inline"
least_cycle = 40
greatest_cycle = 90
group = [{ name = "A", min_green = 5 }, { name = "B", min_green = 5 }]
lane = [{ name = "A1", group = "A", arrival = 1, saturation = 1800 }]
conflict = [{ a = "A", b = "B", a_to_b = 3, b_to_a = 3 }]
"""


def edited(text, steps, *words):
    return made(text, steps(document_of(text), *words))


class Values(unittest.TestCase):
    def test_a_value_is_changed_in_its_own_characters(self):
        self.assertEqual(edited(JUNCTION, edits.put_steps, "group", 0, "min_green", "12"),
                         JUNCTION.replace("min_green = 7 # seconds", "min_green = 12 # seconds"))
        self.assertEqual(edited(JUNCTION, edits.put_steps, "lane", 0, "saturation", "1900"),
                         JUNCTION.replace("1_800", "1900"))
        self.assertEqual(edited(JUNCTION, edits.put_steps, "top", 0, "name", 'a "b" \\ # c'),
                         JUNCTION.replace('"mill"', '"a \\"b\\" \\\\ # c"'))

    def test_a_group_is_renamed_wherever_it_is_named(self):
        text = edited(JUNCTION, edits.put_steps, "group", 0, "name", "road")
        self.assertEqual(text, JUNCTION.replace('"main"', '"road"'))

    def test_a_key_that_is_missing_gets_a_line_and_the_second_version_where_it_needs_that(self):
        text = edited(JUNCTION, edits.put_steps, "group", 1, "max_green", "40")
        document = tomllib.loads(JUNCTION)
        document["group"][1]["max_green"] = 40
        document["version"] = 2
        self.assertEqual(tomllib.loads(text), document)
        self.assertIn("version = 2   # of the file", text)
        without_head = JUNCTION.replace("least_cycle = 40\n", "")
        self.assertEqual(tomllib.loads(edited(without_head, edits.put_steps, "top", 0, "least_cycle", "40")),
                         tomllib.loads(JUNCTION))

    def test_an_optional_value_is_taken_away_with_its_line(self):
        without_limit = JUNCTION.replace("limit = 850\n", "")
        self.assertEqual(edited(JUNCTION, edits.put_steps, "lane", 0, "limit", ""), without_limit)
        self.assertEqual(edited(JUNCTION, edits.put_steps, "group", 0, "max_green", ""), JUNCTION)

    def test_inline_tables_are_changed_where_they_stand(self):
        text = edited(INLINE, edits.put_steps, "group", 1, "min_green", "9")
        self.assertEqual(text, INLINE.replace('"B", min_green = 5', '"B", min_green = 9'))

    def test_what_is_no_number_is_refused(self):
        for word in ("", "x", "1.5", "0x10", "1" * 10, "5 # more"):
            with self.assertRaises(Fault):
                edited(JUNCTION, edits.put_steps, "group", 0, "amber", word)


class Rows(unittest.TestCase):
    def test_a_row_is_added_behind_its_like(self):
        for part in ("group", "lane", "link"):
            text = edited(JUNCTION, edits.add_steps, part)
            before, after = tables(JUNCTION), tables(text)
            self.assertEqual(after[part][:-1], before[part])
            for other in {"group", "lane", "conflict", "link"} - {part}:
                self.assertEqual(after[other], before[other])
            for line in JUNCTION.splitlines():
                self.assertTrue(line in text.splitlines() or line.startswith("version"), line)

    def test_a_group_is_taken_away_with_all_that_names_it(self):
        text = edited(JUNCTION, edits.take_steps, "group", 0)
        self.assertEqual([group["name"] for group in tables(text)["group"]], ["side"])
        self.assertEqual((tables(text)["lane"], tables(text)["conflict"]), ([], []))
        self.assertIn("# Before the keys.", text)

    def test_an_intergreen_makes_a_conflict_changes_it_and_ends_it(self):
        alone = edited(JUNCTION, edits.intergreen_steps, 0, 1, "")
        self.assertEqual(tables(alone)["conflict"], [])
        made = edited(alone, edits.intergreen_steps, 1, 0, "8")
        self.assertEqual(tables(made)["conflict"], [{"a": "side", "b": "main", "a_to_b": "8", "b_to_a": "8"}])
        changed = edited(made, edits.intergreen_steps, 0, 1, "4")
        self.assertEqual(tables(changed)["conflict"], [{"a": "side", "b": "main", "a_to_b": "8", "b_to_a": "4"}])

    def test_what_the_text_does_not_show_is_refused(self):
        for steps, words in ((edits.add_steps, ("group",)), (edits.take_steps, ("group", 0))):
            with self.assertRaises(Fault):
                edited(INLINE, steps, *words)
        for part, number in (("group", 2), ("link", 0)):
            with self.assertRaises(Fault):
                edited(JUNCTION, edits.take_steps, part, number)
        with self.assertRaises(Fault):
            document_of("version = ")

    def test_text_in_many_lines_is_never_taken_for_keys(self):
        text = JUNCTION.replace('"mill"', '"""\n[[group]]\nmin_green = 1\n"""')
        changed = edited(text, edits.put_steps, "group", 0, "min_green", "9")
        self.assertEqual(changed, text.replace("min_green = 7 #", "min_green = 9 #"))


class Examples(unittest.TestCase):
    def test_the_last_element_of_each_part_is_changed_and_changed_back(self):
        for example in examples():
            text, document = example["text"], tomllib.loads(example["text"])
            for part in {"group", "lane", "conflict", "link"} & set(document):
                number, table = len(document[part]) - 1, document[part][-1]
                for key in (key for key, value in table.items() if isinstance(value, int)):
                    changed = edited(text, edits.put_steps, part, number, key, str(table[key] + 1))
                    self.assertNotEqual(changed, text)
                    self.assertEqual(edited(changed, edits.put_steps, part, number, key, str(table[key])), text)


class Reading(unittest.TestCase):
    def test_tables_show_what_stands_there_right_or_wrong(self):
        self.assertEqual(tables('name = 5\ngroup = 3\nlane = [1, {name = "x"}]')["lane"][1]["name"], "x")
        self.assertIn("line 2", tables("version = 1\nname = x")["unreadable"])

    def test_numbers_of_more_digits_than_python_reads_are_a_fault_and_no_end(self):
        for number in ("9" * 5000, "0x" + "f" * 5000, "[0x%s]" % ("f" * 5000)):
            self.assertEqual(list(tables("version = %s\n" % number)), ["unreadable"])
        with self.assertRaises(Fault):
            document_of("version = %s\n" % ("9" * 5000))


if __name__ == "__main__":
    unittest.main()
