"""What `explain` tells in words about a page or a line, as the object of the same question has it by docs/FORMATS.md."""
import re

HEAD = re.compile(r"Page (\d+) has (?:a|no) fault\.")
NO_PAGE = re.compile(r"The machine has no page (\d+): it has (\d+) page")
NO_RECORD = re.compile(r"Line (\d+) tells no record of the logs\.")
NAMED = re.compile(r"(?:This is l|L)ine (\d+) \((\w+) (\d+)\)(?::| does not have the right shape)")
WRONG = re.compile(r"(?:Line|It shows at line) (\d+) \((\w+) (\d+)\)(?: is wrong)?:")
STEP = re.compile(r"  line (\d+) \((\w+) (\d+)\): ")


def topic_of(words):
    """The topic of these words, which have no reason of a fault."""
    lines, topic = words.split("\n")[1:], {}
    for line in lines:
        no_page, no_record, named, head, wrong = (it.match(line) for it in (NO_PAGE, NO_RECORD, NAMED, HEAD, WRONG))
        if no_page:
            topic = {"page": int(no_page[1]), "pages": int(no_page[2])}
        elif no_record:
            topic = {"line": int(no_record[1])}
        elif named:
            topic = {"line": int(named[1]), "log": named[2], "record": int(named[3])}
        elif head:
            topic["page"] = int(head[1])
        elif wrong:
            topic["fault"] = {"line": int(wrong[1]), "log": wrong[2], "record": int(wrong[3])}
    return topic


def steps_of(words):
    """The line, the log and the number of each record that the story of a page goes by."""
    return [(int(line), log, int(n)) for line, log, n in STEP.findall(words)]
