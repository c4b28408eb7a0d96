"""The library for C: its header, its names and the example programs. ./build-library comes first."""

import shutil
import subprocess

from running import EXAMPLES, PATIENCE, TOP, CommandTest

LIBRARY, SHARED = TOP / "target" / "lib" / "libsalwoerk.a", TOP / "target" / "lib" / "libsalwoerk.so"
WARNINGS = ["-Wall", "-Wextra", "-Wpedantic", "-Werror", "-I", TOP / "include"]
USE = """#include "salwoerk.h"
int main(void)
{
    salwoerk_section a = SALWOERK_SECTION_INIT;
    return (int)a.count + (int)a.links.present + (int)a.links.area + (int)a.layers[SALWOERK_LAYERS - 1].area
        + (int)a.grade.situation - SALWOERK_PERSISTENT + (int)a.grade.alpha_cc - SALWOERK_RECOMMENDED_ALPHA_CC
        + *salwoerk_verdict_clause(SALWOERK_VERDICTS) + salwoerk_is_beyond(a.height, 0);
}
"""

DRAGGED = """\
beam: three bars of 20 mm, from the top to the bottom
depth, mm           6.1     5.6.3(2)        6.2.2   9.2.1.1(1)   9.2.1.1(3)        6.2.3
0           refused, 6: a layer's depth not 1 to h-1 mm
1 to 135           fail         pass         fail         pass         pass         pass
136 to 176         fail         pass         fail         pass         pass         fail
177 to 237         fail         fail         fail         pass         pass         fail
238 to 279         fail         fail         pass         pass         pass         fail
280 to 320         pass         fail         pass         pass         pass         fail
321 to 499         pass         fail         pass         pass         pass         pass
500         refused, 6: a layer's depth not 1 to h-1 mm

beam: the number of those bars, at 400 mm
bars                6.1     5.6.3(2)        6.2.2   9.2.1.1(1)   9.2.1.1(3)        6.2.3
0           refused, 7: a layer's area not 1 to 20,000 mm2
1                  fail         pass         pass         pass         pass         pass
2                  pass         pass         pass         pass         pass         pass
3 to 6             pass         fail         pass         pass         pass         pass

beam: a third layer, of bars of 20 mm at 50 mm, beside three at 400 mm
bars                6.1     5.6.3(2)        6.2.2   9.2.1.1(1)   9.2.1.1(3)        6.2.3
0           refused, 7: a layer's area not 1 to 20,000 mm2
1 to 4             pass         pass         pass         pass         pass         pass

column: three bars of 25 mm, from the top to the bottom
depth, mm           6.1     5.6.3(2)        6.2.2   9.2.1.1(1)   9.2.1.1(3)        6.2.3
0           refused, 6: a layer's depth not 1 to h-1 mm
1 to 109           pass  not reached  not reached  not reached         pass  not reached
110 to 211         pass         fail         fail         pass         pass  not reached
212 to 390         pass         fail         pass         pass         pass  not reached
391 to 399         pass         pass         pass         pass         pass  not reached
400         refused, 6: a layer's depth not 1 to h-1 mm
"""


def output_of(*words):
    """What a command prints, errors too, and that it ended well."""
    done = subprocess.run(words, stdout=subprocess.PIPE, stderr=subprocess.STDOUT, stdin=subprocess.DEVNULL, timeout=PATIENCE, check=False)
    return done.returncode, done.stdout.decode()


class Library(CommandTest):
    """include/salwoerk.h, libsalwoerk.a and libsalwoerk.so."""

    def compiled(self, source, *words, compiler="gcc"):
        """The program of a source file; a warning is a failure."""
        program = self.folder / "program"
        self.assertEqual(output_of(compiler, *words, *WARNINGS, source, LIBRARY, "-o", program), (0, ""))
        return program

    def test_the_header_in_c_and_cpp(self):
        for compiler, standard, name in (("gcc", "c99", "use.c"), ("gcc", "c11", "use.c"), ("gcc", "c17", "use.c"),
                                         ("g++", "c++98", "use.cpp"), ("g++", "c++17", "use.cpp"), ("g++", "c++20", "use.cpp")):
            if compiler == "g++" and not shutil.which(compiler):
                continue  # the README asks for gcc alone
            with self.subTest(standard=standard):
                program = self.compiled(self.file(name, USE), f"-std={standard}", compiler=compiler)
                self.assertEqual(output_of(program), (0, ""))

    def test_layout_and_answers(self):
        status, text = output_of(self.compiled(TOP / "tests" / "header.c", "-std=c11"))
        self.assertEqual((status, text.splitlines()[-1].split(", ")[1]), (0, "0 failed"), text)

    def test_layout_and_answers_through_the_shared_library(self):
        program = self.folder / "program"
        linked = output_of("gcc", "-std=c11", *WARNINGS, TOP / "tests" / "header.c", "-L", SHARED.parent, "-lsalwoerk",
                           f"-Wl,-rpath,{SHARED.parent}", "-o", program)
        self.assertEqual(linked, (0, ""))
        status, text = output_of(program)
        self.assertEqual(status, 0, text)

    def test_the_example_in_c(self):
        program = self.compiled(EXAMPLES / "check.c", "-std=c99")
        status, text = output_of(program)
        self.assertEqual(status, 0)
        section_a, column = (part.splitlines() for part in text.split("\n\n"))
        self.assertEqual(section_a[:4], ["u 135.8 mm, MRd 257986051 N mm, VRd,c 86851 N, dm 450 mm, As 1500 mm2",
                                         "the other face: u 41.9 mm, MRd 6312569 N mm",
                                         "with links: VRd 222308 N, cotangent 2.5",
                                         "depth from the top: 12 trials of the halving rule, never more than 15"])
        self.assertEqual(section_a[-2:], ["9.2.1.1(3), most reinforcement: pass",
                                          "6.2.3, |V| at most the links' resistance, their spacing and ratio: pass"])
        self.assertEqual(column[:2], ["u 431.3 mm (compressed over the full height), MRd 169948995 N mm, VRd,c 0 N, dm 0 mm, As 0 mm2",
                                      "the other face: u 431.3 mm (compressed over the full height), MRd 169948995 N mm"])
        self.assertEqual([line.split(": ")[1] for line in column[2:]], ["pass", *["not reached"] * 3, "pass", "not reached"])

    def test_the_example_of_a_drag(self):
        self.maxDiff = None
        status, text = output_of(self.compiled(EXAMPLES / "drag.c", "-std=c99"))
        self.assertEqual(text, DRAGGED)
        self.assertEqual(status, 0)

    def test_the_example_in_python(self):
        self.assertEqual(output_of("python3", EXAMPLES / "check.py", SHARED),
                         (0, "0 1358 257986051 419 6312569 86851 450 1500 25 222308 0 0 0 0 0 0\n"
                             "0 4313 169948995 4313 169948995 0 0 0 0 0 0 2 2 2 0 2\n"
                             "u: compressed over the full height\nother_u: compressed over the full height\n"))

    def test_the_library_gives_no_other_names(self):
        _, text = output_of("nm", "-D", "--defined-only", SHARED)
        names = {line.split()[-1] for line in text.splitlines() if " T " in line}
        calls = {f"salwoerk_{call}" for call in ("find_depth", "moment_at", "check", "try_layer", "read", "write", "list")}
        self.assertLessEqual(calls, names)
        self.assertEqual({name for name in names - calls if not name.startswith("_")}, set())
