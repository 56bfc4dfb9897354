"""What the commands write as JSON is as docs/answers.schema.json says,
and what isn't is refused by it."""
import copy
import json
import os

import jsonschema

from cases import COLLECTION, SHELVES, TOP, Command, command, within
from helpers.records import drawn_in


class Schema(Command):
    @classmethod
    def setUpClass(cls):
        with open(os.path.join(TOP, "docs/answers.schema.json"), encoding="utf-8") as file:
            cls.schema = json.load(file)

    def fits(self, told, kind):
        """Whether an object fits the schema of all kinds, and that of one."""
        checks = [jsonschema.Draft202012Validator({**self.schema, "oneOf": kinds})
                  for kinds in (self.schema["oneOf"], [{"$ref": f"#/$defs/{kind}"}])]
        return [check.is_valid(told) for check in checks]

    def objects(self):
        """Each object that the commands write of some logs, with its kind."""
        names = [*self.names, "/nowhere", os.path.join(TOP, "examples/unfinished-count.log")]
        for kind, words in (("check", ["--json"]), ("report", ["report", "--json"])):
            for line in within(*words, *names)[0].splitlines():
                told = json.loads(line)
                yield told, "check" if told["status"] == 4 else kind
        yield json.loads(within("--json", "--margin", "2", self.names[0])[0]), "check"
        yield from ((drawn_in(command("page", name)[0].decode())[0], "log")
                    for name in names if name != "/nowhere")
        tables = [os.path.join(COLLECTION, name) for name in ("catalogue.csv", "places.csv")]
        expected = self.write("expected.csv", b"uid\nE0040100000000A1\nnone\n")
        answers = [within("collection", "--json", *words)[0] for words in (
            [*tables, *SHELVES], [*tables, *SHELVES[:2], *self.names], [*tables, self.names[6]],
            [expected, self.names[1]], ["--margin", "2", expected, self.names[1]],
            [self.write("cut.csv", b"uid\nE0040100000000A1\nnone"), self.names[1]])]
        yield from ((json.loads(answer), "collection") for answer in answers)
        yield (drawn_in(within("collection", "--page", *tables, *SHELVES)[0].decode())[0],
               "collection")
        old, *others = [self.write(f"{index}.json", answer)
                        for index, answer in enumerate(answers)]
        for new in others:
            yield json.loads(within("compare", "--json", old, new)[0]), "comparison"

    def test_what_is_written_fits(self):
        met = set()
        for told, kind in self.objects():
            self.assertEqual(self.fits(told, kind), [True, True], told)
            met.add(kind)
        self.assertEqual(met, {"check", "report", "collection", "comparison", "log"})

    def test_each_field_is_needed(self):
        for told, kind in {kind: (told, kind) for told, kind in self.objects()}.values():
            has_more = kind in ("collection", "log")
            for field in self.schema["$defs"][kind]["required"] if has_more else told:
                left = {key: value for key, value in told.items() if key != field}
                self.assertFalse(self.fits(left, kind)[1], (kind, field))
            self.assertFalse(self.fits({**told, "schema": 3}, kind)[1])

    def test_masks_that_are_not_padded_do_not_fit(self):
        told = next(told for told, kind in self.objects()
                    if told.get("kind") == "unsettled" and kind == "check")
        for value in ("E", "", "0e", "-0"):
            changed = copy.deepcopy(told)
            changed["mask_value"] = value
            self.assertEqual(self.fits(changed, "check"), [False, False])
