#!/usr/bin/env python3
"""Says what the documents name that isn't there, and which figures differ.

    python3 tools/links.py

Looked at are the Markdown files of the repository, mutants aside: their links, with the headings that these
name; files and folders between backticks, from the top, from the document's own folder or by the end of a
path, and paths from the top within commands; sections in quotes. Then the documents and sections that
scripts, sources and examples name. Of figures: rows of one name that differ between tables of equal heads;
names with a version, of the kit and of the package; the limits of docs/LIMITS.md beside the constants of the
code. The last line counts; the status is 0 where nothing is missing.
"""

import sys

from farmkit import documents, figures
from farmkit.command import parser
from farmkit.documents import Document
from farmkit.repository import TOP


def main() -> int:
    parser(__doc__).parse_args()
    every = [Document(path) for path in documents.documents()]
    there = documents.ends_of(documents.paths())
    count = 0
    lost = [*figures.differing_rows(every), *figures.differing_names(every),
            *figures.differing_limits(Document(TOP / "docs" / "LIMITS.md"))]
    for document in every:
        files, sections = list(document.files()), list(documents.sections_of(document))
        commands = list(document.paths_in_commands())
        count += len(documents.links_of(document)) + len(files) + len(sections) + len(commands)
        missing = [*documents.lost_links(document), *documents.lost_sections(document),
                   *(f"{file} isn't there" for file in files if file.rstrip("/") not in there),
                   *(f"{path} isn't there" for path in commands if not (TOP / path).exists())]
        lost += [f"{document.name}: {what}" for what in missing]
    for path in documents.texts():
        lost += [f"{path.relative_to(TOP)}: {what}" for what in documents.lost_in_text(path)]
    for line in lost:
        print(line)
    print(f"{count} links, names of files and of sections, {len(lost)} missing")
    return 1 if lost else 0


if __name__ == "__main__":
    sys.exit(main())
