"""PORT-OTHER.md: each of its programs is compiled as the page says, and run; the header for a strict compiler."""
import pages
from trial import same, test


@test("PORT: ./skelfora library, and the programs in C, Rust (editions 2021 and 2024) and Python, compiled and run as the page has them")
def port(folder):
    pages.run("docs/PORT-OTHER.md", folder)


@test("the header and the page's C program pass a strict compiler")
def strict(folder):
    (program,) = [block.text for block in pages.blocks("docs/PORT-OTHER.md") if block.language == "c"]
    folder.put("first.c", program)
    for standard in ("c99", "c11"):
        gave = folder.run("cc", f"-std={standard}", "-Wall", "-Wextra", "-Wpedantic", "-Werror", "-Idocs", "-c", "first.c", "-o", "first.o")
        same((gave.status, gave.err), (0, ""), standard)
