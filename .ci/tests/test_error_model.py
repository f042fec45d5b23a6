"""tools/error_model.py, the reader of models that the scripts share: what it makes of texts that are read by hand here."""
import unittest
from decimal import DefaultContext, localcontext
from math import inf

from example_models import repetition_code
from programs import TOP, load

error_model = load(TOP / "tools" / "error_model.py")

# Texts, and of each the errors, the numbers of detectors and observables, and the coordinates.
READ = [
    ("", [], 0, 0, {}),
    ("error(0.25) D3 L1\n", [(0.25, (3,), (1,))], 4, 2, {}),
    ("ERROR [a tag] ( 1e-2 ) D7\tD2 L0 # D9\r\n", [(0.01, (2, 7), (0,))], 8, 1, {}),
    ("error(0.5) D1 ^ D2 L0 ^ D1 L0 L0\n", [(0.5, (2,), (0,))], 3, 1, {}),
    ("error(1) D4 D4\nlogical_observable L2", [(1.0, (), ())], 5, 3, {}),
    ("detector(1, -2.5) D1\ndetector D3\n# detector D9\n\n}"[:-1], [], 4, 0, {1: (1, -2.5)}),
    ("repeat 3 {\n    error(0.1) D0 D1\n    shift_detectors 1\n}\n", [(0.1, (k, k + 1), ()) for k in range(3)], 4, 0, {}),
    ("shift_detectors(5, 1) 2\nrepeat 2 {\n repeat 2 {\n  detector(1) D0\n  shift_detectors(0, 1) 1\n }\n"
     " shift_detectors(10) 0\n}\ndetector(1, 1, 1) D0\n", [], 7, 0, {2: (6,), 3: (6,), 4: (16,), 5: (16,), 6: (26, 6, 1)}),
    ("shift_detectors 999998\nerror(0) D1", [(0.0, (999999,), ())], 1000000, 0, {}),
    ("error[\xe9\u2603](0.5) D0 # \xfc \udcff\nlogical_observable L1023", [(0.5, (0,), ())], 1, 1024, {}),
    ("detector(1e9999999, 2) D1", [], 2, 0, {1: (inf, 2)}),
    ("error(0.10000000000000000555) L1\nerror(1e-9999) D0", [(0.1, (), (1,)), (0.0, (0,), ())], 1, 2, {}),
]

# Texts that aren't read, and what is told of them.
REFUSED = [
    ("error(0.1) D0\nfoo D0", "line 2: 'foo' isn't the name of a line"),
    ("error D0", "line 1: error takes 1 arguments, not 0"),
    ("error(1.1) D0", "line 1: '1.1' is no probability"),
    ("error(-0.1) D0", "line 1: '-0.1' is no probability"),
    ("error(nan) D0", "line 1: 'nan' is no number"),
    ("error(0.1) d0", "line 1: 'd0' is no target"),
    ("detector L0", "line 1: detector takes no observables"),
    ("error(0.1 D0", "line 1: error takes 1 arguments, not 0"),
    ("error(0.1) D0 }", "line 1: a block begins with"),
    ("error(0.1) D0 {\n}", "line 1: a block begins with"),
    ("repeat 0 {\n}", "line 1: a block is repeated at least once"),
    ("repeat 2\n", "line 1: a block begins with"),
    ("\nshift_detectors 1 2", "line 2: shift_detectors takes 1 number"),
    ("}", "line 1: no block is open"),
    ("repeat 2 {\nerror(0.1) D0", "line 1: the block isn't closed"),
    ("repeat 1 {\n" * 33, "line 33: more than 32 blocks"),
    ("repeat 1000000000 {\nerror(0.1) D0\n}", "line 1: with this block more than 20,000,000 lines"),
    ("error(0.1) D1000000", "line 1: more than 1000000 detectors"),
    ("shift_detectors 999999\ndetector D0\ndetector D1", "line 3: more than 1000000 detectors"),
    ("logical_observable L1024", "line 1: more than 1000000 detectors or 1024 observables"),
    ("detector D" + "9" * 5000, "is no target"),
]


class Reading(unittest.TestCase):
    def test_what_is_read(self):
        """In the context for decimals that a script begins with; those of other tests set another one."""
        for text, errors, detectors, observables, coordinates in READ:
            with self.subTest(text=text), localcontext(DefaultContext):
                model = error_model.read_model(text)
                self.assertEqual(model.errors, errors)
                self.assertEqual((model.detectors, model.observables), (detectors, observables))
                self.assertEqual(model.coordinates, coordinates)

    def test_what_is_refused(self):
        for text, said in REFUSED:
            with self.subTest(text=text[:60]):
                with self.assertRaises(error_model.ModelError) as caught:
                    error_model.read_model(text)
                self.assertIn(said, str(caught.exception))

    def test_the_example_with_blocks(self):
        """Its errors are those of the circuit, which are worked by hand."""
        code = repetition_code()
        model = error_model.read_model((TOP / "examples" / "repetition_code.dem").read_text())
        errors = [(float(probability), tuple(detectors), (0,) * is_logical) for probability, detectors, is_logical in code.faults]
        self.assertEqual(model.errors, errors)
        places = {k: tuple(map(int, place.split(", "))) for k, place in enumerate(code.places)}
        self.assertEqual(model.coordinates, places)


if __name__ == "__main__":
    unittest.main()
