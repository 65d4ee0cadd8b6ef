"""The grammar of RFC 5424, written once more from the RFC's ABNF."""
import re

PRINTUSASCII = rb"[\x21-\x7e]"
SD_NAME = rb"(?:(?![=\]\"])[\x21-\x7e]){1,32}"
PARAM_VALUE = rb"(?:[^\\\"\]]|\\[\\\"\]])*"
SD_ELEMENT = rb"\[" + SD_NAME + rb"(?: " + SD_NAME + rb"=\"" + PARAM_VALUE + rb"\")*\]"
TIMESTAMP = rb"(?:-|(\d{4})-(\d\d)-(\d\d)T(\d\d):(\d\d):(\d\d)(?:\.\d{1,6})?(?:Z|[+-](\d\d):(\d\d)))"
SYSLOG_MSG = re.compile(
    rb"<(0|[1-9]\d{0,2})>[1-9]\d{0,2} " + TIMESTAMP
    + rb" " + PRINTUSASCII + rb"{1,255} "
                             rb"" + PRINTUSASCII + rb"{1,48} " + PRINTUSASCII + rb"{1,128} " + PRINTUSASCII + rb"{1,32}"
    + rb" (-|(?:" + SD_ELEMENT + rb")+)(?: .*)?",
    re.DOTALL,
)


def fault(line):
    """Says what rule the line breaks, or nothing."""
    found = SYSLOG_MSG.fullmatch(line)
    if not found:
        return "no SYSLOG-MSG"
    if int(found[1]) > 191:
        return "PRIVAL"
    if found[2]:
        year, month, day, hour, minute, second = (int(found[k]) for k in range(2, 8))
        if not 1 <= month <= 12:
            return "DATE-MONTH"
        leap = year % 4 == 0 and (year % 100 != 0 or year % 400 == 0)
        days = [31, 29 if leap else 28, 31, 30, 31, 30, 31, 31, 30, 31, 30, 31]
        if not 1 <= day <= days[month - 1]:
            return "DATE-MDAY"
        if hour > 23 or minute > 59 or second > 59:
            return "PARTIAL-TIME"
        if found[8] and (int(found[8]) > 23 or int(found[9]) > 59):
            return "TIME-OFFSET"
    try:
        line.decode("utf-8")
    except UnicodeDecodeError:
        return "UTF-8"
    if found[10] != b"-":
        ids = re.findall(rb"\[(" + SD_NAME + rb")(?: " + SD_NAME + rb"=\"" + PARAM_VALUE + rb"\")*\]", found[10])
        if len(set(ids)) != len(ids):
            return "SD-ID twice"
    return None
