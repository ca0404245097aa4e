"""The lessons of docs/TUTORIAL.md: their names, their sentences, their examples and their pictures."""
import os
import re
from collections import namedtuple

from clone import TOP

TUTORIAL = os.path.join(TOP, 'docs', 'TUTORIAL.md')
# A lesson's number and name, the sentence that its picture shows, its examples and its pictures by name, in order.
Lesson = namedtuple('Lesson', 'number name sentence examples pictures')


def lessons(text=None):
    """The lessons of the tutorial, or of a text that is written as it is: a heading `## 1. Name`, and below it the
    sentence as a quotation `> ..`."""
    if text is None:
        with open(TUTORIAL, encoding='utf-8') as file:
            text = file.read()
    found = []
    for part in re.split(r'^## ', text, flags=re.M)[1:]:
        heading = re.match(r'(\d+)\. (.+)\n', part)
        if not heading:
            continue
        sentence = re.search(r'^> (.+)$', part, re.M)
        found.append(Lesson(int(heading[1]), heading[2], sentence[1] if sentence else '',
                            unique(re.findall(r'examples/(\w+)\.txt', part)),
                            unique(re.findall(r'\(pictures/(\w+\.(?:svg|png))\)', part))))
    return found


def unique(names):
    """Each name once, where it comes first."""
    return list(dict.fromkeys(names))
