import json
import re
import unittest

from tests.served import SCHEMA, Files, run
from tsvd.errors import DataError
from tsvd.export import guess_key, places_of, read_export
from tsvd.timeline import Shape, page, page_data

EXPORT = '''ok
rows 1
(1, 'a', 5, 6)
no,name,sys_start,sys_end
1,Ann,1,200
1,"</script> ""x""",200,forever
2,,1,150
2,Bo,300,forever
'''


class Exports(unittest.TestCase):
    def test_an_export_is_found_behind_replies(self):
        export = read_export(EXPORT)
        self.assertEqual((export.names, export.period), (("no", "name"), ("sys_start", "sys_end")))
        self.assertEqual([(version.fields[0], version.start, version.end) for version in export.versions],
                         [("1", 1, 200), ("1", 200, None), ("2", 1, 150), ("2", 300, None)])

    def test_a_header_alone_is_an_export(self):
        self.assertEqual(read_export("closed 1\nno,name,sys_start,sys_end\n").versions, [])

    def test_a_text_may_have_any_character_but_a_line_end(self):
        export = read_export('no,name,s,e\n1,a\x00b,1,5\n1,"\x00, ""\u2028\x85",5,forever\n')
        self.assertEqual([version.fields[1] for version in export.versions], ["a\x00b", '\x00, "\u2028\x85'])

    def test_other_texts_are_no_exports(self):
        for text in ("", "ok\n", "1,2,3,4\n", "a,b\n1,2\n"):
            with self.assertRaises(DataError):
                read_export(text)

    def test_the_key_is_guessed_from_the_periods(self):
        for lines, places in [
                ("1,1,a,1,2\n1,1,b,2,3\n1,2,a,1,forever\n2,1,a,1,forever", (0, 1)), ("1,1,a,1,2\n2,1,a,1,2", (0,)),
                ("1,1,a,1,2\n1,2,a,1,2", (1,)), ("1,1,a,1,5\n1,1,a,4,6", (0,)),
                ("9,1,b,1,2\n10,1,a,1,2", (0,)), ("b,10,x,1,2\nb,9,y,1,2\na,8,z,1,2", (2,)),
                ("1,8,x,1,2\n1,9,a,1,2\n2,7,c,1,2", (0, 1)), ("b,2,b,1,2\na,1,a,1,2", (0,)),
                ("1,3,z,1,2\n1,2,y,1,2\n1,1,x,1,2", (1,))]:
            self.assertEqual(guess_key(read_export("a,b,c,s,e\n" + lines)), places, lines)

    def test_columns_are_found_by_name(self):
        export = read_export(EXPORT)
        self.assertEqual(places_of(export, ["NAME", "no"]), (1, 0))
        with self.assertRaises(DataError):
            places_of(export, ["dept"])


class Pages(Files):
    def test_versions_have_the_places_of_their_instants(self):
        data = page_data(read_export(EXPORT), Shape((0,)))
        self.assertEqual([stop for stop, _ in data["stops"]], ["1", "150", "200", "300"])
        self.assertEqual([(row["key"], [version[1:] for version in row["versions"]]) for row in data["rows"]],
                         [("1", [[0, 2], [2, -1]]), ("2", [[0, 1], [3, -1]])])
        self.assertFalse(data["changed"])

    def test_above_100_keys_only_what_changed_is_shown_at_first(self):
        for keys, changed in ((100, False), (101, True)):
            rows = "".join(f"{key},1,forever\n" for key in range(keys))
            self.assertEqual(page_data(read_export("no,s,e\n" + rows), Shape((0,), True))["changed"], changed)

    def test_the_page_needs_no_network_and_no_field_leaves_its_data(self):
        made = page(read_export(EXPORT), title="a <b> & c")
        self.assertIn("<title>a &lt;b&gt; &amp; c</title>", made)
        self.assertEqual(made.count("</script>"), 1)
        self.assertNotRegex(made, r"https?://|src=|@import|url\(")
        data = json.loads(re.search(r"^const data = (.*);$", made, re.M).group(1))
        self.assertEqual(data["rows"][0]["versions"][1][0], ["1", '</script> "x"'])

    def test_a_table_without_versions_is_a_page(self):
        self.assertIn('"rows": []', page(read_export("no,name,sys_start,sys_end\n")))

    def test_the_command_takes_the_key_of_the_schema(self):
        file = self.file("staff.csv", "site,no,name,active,recorded,superseded\na,1,Ann,true,1,forever\n")
        out, err, status = run("timeline", file, "--schema", self.file("tables.schema", SCHEMA))
        self.assertEqual((err, status), ("", 0))
        self.assertIn('"key": [0, 1]', out)
        out, err, status = run("timeline", file, "--key", "no")
        self.assertIn('"key": [1]', out)
        out, err, status = run("timeline", "-", text=b"nothing")
        self.assertEqual((out, err.split(":")[0], status), ("", "timeline", 1))
