"""The validators of docs/PYTHON.md, where the packages that they are for can be imported."""
import importlib.util
import os
import re
import unittest

import gaffsilver

PAGE = f"{os.path.dirname(os.path.realpath(__file__))}/../../docs/PYTHON.md"

# It takes exponential time, unless it is limited.
EXPONENTIAL = r"(?:(x)|x+x+)+y\1"


def run(part, **names):
    """The names that a part of the page's validators defines, from its first words to an empty line."""
    with open(PAGE, encoding="utf-8") as file:
        source = re.search(rf"(?ms)^{re.escape(part)}.*?^(?=\n|```)", file.read())[0]
    exec(source, names)
    return names


class Validators(unittest.TestCase):
    def setUp(self):
        self.addCleanup(gaffsilver.uninstall)
        self.addCleanup(gaffsilver.set_default_max_steps, None)
        self.installed = run("import gaffsilver; ")
        gaffsilver.set_default_max_steps(100_000)

    def test_the_line_that_installs(self):
        self.assertTrue(gaffsilver.is_installed())
        self.assertIs(self.installed["gaffsilver"], gaffsilver)

    @unittest.skipUnless(importlib.util.find_spec("pydantic"), "there is no pydantic")
    def test_pydantic(self):
        from typing import Annotated

        from pydantic import AfterValidator, TypeAdapter, ValidationError

        code = run("def code", gaffsilver=gaffsilver, CODE=re.compile(EXPONENTIAL))["code"]
        checked = TypeAdapter(Annotated[str, AfterValidator(code)]).validate_python
        self.assertEqual(checked("xxyx"), "xxyx")
        for text, words in (("xy", "no code"), (60 * "x", "too complex")):
            with self.assertRaisesRegex(ValidationError, words):
                checked(text)

    @unittest.skipUnless(importlib.util.find_spec("django"), "there is no Django")
    def test_django(self):
        from django.conf import settings
        from django.core.exceptions import ValidationError
        from django.core.validators import RegexValidator

        settings.configured or settings.configure()
        names = {"RegexValidator": RegexValidator, "ValidationError": ValidationError, "gaffsilver": gaffsilver}
        checked = run("class Limited", **names)["Limited"](EXPONENTIAL, "no code")
        self.assertIsNone(checked("xxyx"))
        for text, words in (("xy", "no code"), (60 * "x", "too complex")):
            with self.assertRaisesRegex(ValidationError, words):
                checked(text)


if __name__ == "__main__":
    unittest.main()
