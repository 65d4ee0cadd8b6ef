"""Makes the lines that the benchmark reads: the same ones each time, from fixed seeds.

As a program: corpora.py FOLDER [LINES] writes each corpus to a file of its own.
"""

import os
import random
import sys

HOSTS = ["gateway", "web-01.prod.example.net", "db-replica-3", "10.40.2.17", "fd00::8a2e:370:7334", "NYC-CORE-RT1"]
APPS = ["nginx", "sshd", "kernel", "systemd", "postfix/qmgr", "cron", "postgres", "haproxy", "dockerd"]
TEXTS = [
    "Accepted publickey for deploy from 10.0.4.17 port 51514 ssh2: ED25519",
    '198.51.100.7 - - "GET /static/app.js HTTP/1.1" 304 0 "-" "curl/8.5.0"',
    "Started Daily apt download activities.",
    "checkpoint complete: wrote 1204 buffers (7.3%); 0 WAL file(s) added",
    "eth0: link becomes ready",
    "warning: hostname static.example.org does not resolve to address 192.0.2.25: No address associated with hostname",
    "(root) CMD (test -x /usr/sbin/anacron || run-parts /etc/cron.daily)",
    "Server pool/web-02 is DOWN, reason: Layer4 timeout, check duration: 2001ms.",
]
NON_ASCII_HOSTS = ["büro-drucker", "сервер-1", "店舗12", "κεντρικός"]
NON_ASCII_TEXTS = [
    "Papierstau in Fach 2, größenordnungsmäßig 40 Blatt übrig",
    "пользователь вошёл в систему, сеанс открыт",
    "取引 1842 を完了しました (合計 ¥3,980)",
    "η σύνδεση έκλεισε από τον απομακρυσμένο κόμβο",
    "temperature 21.5 °C, battery 🔋 80 %",
]
CHINESE_AND_RUSSIAN_TEXTS = [
    "取引 1842 を完了しました (合計 ¥3,980)",
    "用户 deploy 从 10.0.4.17 登录成功, 会话已打开",
    "磁盘 /dev/sda1 空间不足: 剩余 4%",
    "пользователь вошёл в систему, сеанс открыт",
    "не удалось подключиться к серверу базы данных: время ожидания истекло",
]
MONTHS = ["Jan", "Feb", "Mar", "Apr", "May", "Jun", "Jul", "Aug", "Sep", "Oct", "Nov", "Dec"]
OFFSETS = ["Z", "Z", "Z", "+00:00", "+01:00", "-05:00", "+05:30"]
FRACTIONS = [0, 3, 3, 6, 6, 9]

HOSTILE_SIZES = [32, 64, 128]
HEADER = "1 - - - - - "
HEADER_3164 = "- host app: "


def priority(chance):
    return "<%d>" % chance.randrange(192)


def stamp(chance):
    digits = chance.choice(FRACTIONS)
    fraction = ".%0*d" % (digits, chance.randrange(10**digits)) if digits else ""
    day = "%04d-%02d-%02d" % (chance.randrange(1995, 2040), chance.randrange(1, 13), chance.randrange(1, 29))
    clock = "%02d:%02d:%02d" % (chance.randrange(24), chance.randrange(60), chance.randrange(60))
    return day + "T" + clock + fraction + chance.choice(OFFSETS)


def month_stamp(chance):
    month, day = chance.choice(MONTHS), chance.randrange(1, 29)
    return "%s %2d %02d:%02d:%02d" % (month, day, chance.randrange(24), chance.randrange(60), chance.randrange(60))


def header(chance, hosts=HOSTS):
    process = str(chance.randrange(1, 70000)) if chance.random() < 0.8 else "-"
    message_id = "ID%d" % chance.randrange(200) if chance.random() < 0.5 else "-"
    words = [stamp(chance), chance.choice(hosts), chance.choice(APPS), process, message_id]
    return priority(chance) + "1 " + " ".join(words)


def plain_5424(chance):
    return header(chance) + " - " + chance.choice(TEXTS)


def element(chance):
    values = [
        "%d" % chance.randrange(100000), "eth%d" % chance.randrange(8), "TCP FIN", "", 'C:\\\\tmp\\\\\\"a\\"', "x[1\\]"
    ]
    names = ["sequence", "interface", "reason", "user", "path", "item"]
    params = "".join(' %s="%s"' % pair for pair in zip(names, values[: chance.randrange(7)]))
    return "[%s@%d%s]" % (chance.choice(["meta", "origin", "flow"]), chance.randrange(1, 65536), params)


def elements_5424(chance):
    elements = "".join(element(chance) for _ in range(chance.randrange(1, 4)))
    return header(chance) + " " + elements + " " + chance.choice(TEXTS)


def plain_3164(chance):
    tag = chance.choice(APPS) + ("[%d]" % chance.randrange(1, 70000) if chance.random() < 0.8 else "")
    return "%s%s %s %s: %s" % (priority(chance), month_stamp(chance), chance.choice(HOSTS), tag, chance.choice(TEXTS))


def long_5424(chance):
    words = [chance.choice(TEXTS) for _ in range(chance.randrange(20, 200))]
    return header(chance) + " - " + "; ".join(words)


def non_ascii_5424(chance):
    return header(chance, NON_ASCII_HOSTS) + " - " + chance.choice(NON_ASCII_TEXTS)


def refused(chance):
    return "".join(chance.choice("abcdefgh <>[]=\"\\:-1.T") for _ in range(100))


def mixed(chance):
    makers = [plain_5424, plain_5424, elements_5424, plain_3164, non_ascii_5424, refused]
    return chance.choice(makers)(chance)


# A client's address.
def address(chance):
    return "%s.%d" % (chance.choice(["203.0.113", "198.51.100", "10.0.4"]), chance.randrange(1, 255))


# What nginx, sshd, sudo, cron, systemd and the kernel write: facility and severity, the program, whether it gives its
# process id, and the text.
def program_line(chance):
    at, port, user = address(chance), chance.randrange(1024, 65536), chance.choice(["deploy", "root", "anna", "backup"])
    path = chance.choice(["/", "/index.html", "/static/app.js", "/api/v1/orders?page=2"])
    status, size = chance.choice([200, 200, 304, 404]), chance.randrange(100000)
    key = "".join(chance.choice("ABCDEFGHabcdefgh0123456789") for _ in range(16))
    return chance.choice(
        [
            (190, "nginx", False, '%s - - "GET %s HTTP/1.1" %d %d "-" "curl/8.5.0"' % (at, path, status, size)),
            (38, "sshd", True, "Accepted publickey for %s from %s port %d ssh2: ED25519 %s" % (user, at, port, key)),
            (84, "sshd", True, "Failed password for invalid user admin from %s port %d ssh2" % (at, port)),
            (85, "sudo", False, "  %s : TTY=pts/%d ; PWD=/srv ; USER=root ; COMMAND=/usr/bin/id" % (user, port % 9)),
            (86, "sudo", True, "pam_unix(sudo:session): session opened for user root(uid=0) by %s(uid=0)" % user),
            (78, "CRON", True, "(root) CMD (test -x /usr/sbin/anacron || run-parts /etc/cron.daily)"),
            (30, "systemd", True, "Started Session %d of user %s." % (size, user)),
            (30, "systemd", True, "logrotate.service: Deactivated successfully."),
            (6, "kernel", False, "[%6d.%06d] eth%d: renamed from veth%s" % (size, port, port % 4, key[:7])),
            (4, "kernel", False, "[%6d.%06d] TCP: Possible SYN flooding on port %d." % (size, port, port)),
        ]
    )


def programs_5424(chance):
    priority, app, has_process, text = program_line(chance)
    process = str(chance.randrange(1, 70000)) if has_process else "-"
    words = [stamp(chance), chance.choice(HOSTS), app, process, "- -", text]
    return "<%d>1 " % priority + " ".join(words)


def programs_3164(chance):
    priority, app, has_process, text = program_line(chance)
    tag = app + ("[%d]" % chance.randrange(1, 70000) if has_process else "")
    return "<%d>%s %s %s: %s" % (priority, month_stamp(chance), chance.choice(HOSTS), tag, text)


# As logger and rsyslogd write them.
def senders_5424(chance):
    start = "<%d>1 %s %s " % (chance.randrange(192), stamp(chance), chance.choice(HOSTS))
    if chance.random() < 0.75:
        quality = '[timeQuality tzKnown="1" isSynced="1" syncAccuracy="%d"]' % chance.randrange(10**6)
        return start + "%s - - %s %s" % (chance.choice(["root", "deploy", "backup"]), quality, chance.choice(TEXTS))
    origin = '[origin software="rsyslogd" swVersion="8.2302.0" x-pid="%d" x-info="https://www.rsyslog.com"]'
    text = chance.choice(["start", "exiting on signal 15."])
    return start + "rsyslogd - - " + origin % chance.randrange(1, 70000) + " " + text


# RFC 3164 from senders that put no colon after the tag, or nothing at all after the host.
def senders_3164(chance):
    start = (priority(chance) if chance.random() < 0.7 else "") + month_stamp(chance) + " " + chance.choice(HOSTS)
    level = chance.choice(["core:notice", "php7:emerg", "proxy:error", "ssl:warn"])
    at = "Tue Mar %02d 06:33:%02d.%06d 2021" % (chance.randrange(1, 29), chance.randrange(60), chance.randrange(10**6))
    ends = [
        " apache_error [%s] [%s] [pid %d] %s" % (at, level, chance.randrange(1, 70000), chance.choice(TEXTS)),
        " apache_error [%s] [%s] %s" % (at, level, chance.choice(TEXTS)),
        " %s %d - %s" % (chance.choice(APPS), chance.randrange(1, 70000), chance.choice(TEXTS)),
        " %s[%d] %s" % (chance.choice(APPS), chance.randrange(1, 70000), chance.choice(TEXTS)),
        " : " + chance.choice(TEXTS),
        "",
    ]
    return start + chance.choice(ends)


def iso_3164(chance):
    tag = chance.choice(APPS) + ("[%d]" % chance.randrange(1, 70000) if chance.random() < 0.8 else "")
    return "%s%s %s %s: %s" % (priority(chance), stamp(chance), chance.choice(HOSTS), tag, chance.choice(TEXTS))


# Lines of 60 bytes.
def short(chance):
    if chance.random() < 0.5:
        line = "%s1 %s db3 cron - - - " % (priority(chance), stamp(chance))
    else:
        line = "%s%s db3 cron[%d]: " % (priority(chance), month_stamp(chance), chance.randrange(1, 70000))
    return (line + "job done, nothing left to be run here now")[:60]


def blanks_outside(chance):
    line = chance.choice([plain_5424, plain_3164])(chance)
    return " " * chance.randrange(1, 8) + line + " " * chance.randrange(1, 8)


# RFC 5424 with two spaces in one of the gaps.
def two_spaces_5424(chance):
    words = (header(chance) + " -").split(" ")
    words[chance.randrange(1, len(words))] += " "
    return " ".join(words) + " " + chance.choice(TEXTS)


def broken_element_5424(chance):
    elements = "".join(element(chance) for _ in range(chance.randrange(1, 3)))
    broken = chance.choice(['[meta sequence=12]', '[origin ip="10.0.0.1" up]', "[flow=7]", "[]"])
    return header(chance) + " " + elements + broken + " " + chance.choice(TEXTS)


def chinese_and_russian_5424(chance):
    return header(chance) + " - " + chance.choice(CHINESE_AND_RUSSIAN_TEXTS)


# What a container writes whose log is JSON, as Docker and fluent-bit pass it on: a quote in each eight bytes or so.
def containers(chance):
    level, status = chance.choice(["info", "info", "warn", "error"]), chance.choice([200, 200, 304, 404, 500])
    path = chance.choice(["/api/v1/orders", "/healthz", "/static/app.js", "/login?next=%2Fhome"])
    text = '{"level":"%s","ts":%d.%03d,"logger":"http.access","msg":"handled request","method":"GET","uri":"%s"' % (
        level, chance.randrange(10**9, 2 * 10**9), chance.randrange(1000), path)
    text += ',"status":%d,"duration_ms":%d,"remote":"%s","trace_id":"%016x"}' % (
        status, chance.randrange(2000), address(chance), chance.randrange(16**16))
    if chance.random() < 0.5:
        return header(chance) + " - " + text
    return "%s%s %s dockerd[%d]: %s" % (
        priority(chance), month_stamp(chance), chance.choice(HOSTS), chance.randrange(1, 70000), text
    )


# An event of Windows, as NXLog and Winlogbeat write it: backslashes, and tabs where lines were.
def windows(chance):
    user, name = chance.choice(["CORP\\anna", "CORP\\svc-backup", "NT AUTHORITY\\SYSTEM"]), chance.choice(HOSTS)
    program = chance.choice(["C:\\Windows\\System32\\svchost.exe", "C:\\Program Files\\Agent\\bin\\agent.exe"])
    text = (
        "A new process has been created.\tSubject:\t\tAccount Name:\t%s\tNew Process Name:\t%s"
        "\tCommand Line:\t\"%s\" -k netsvcs"
    ) % (user, program, program)
    kind = '[NXLOG@14506 Keywords="-9214364837600034816" EventType="AUDIT_SUCCESS" EventID="%d" RecordNumber="%d"]' % (
        chance.choice([4624, 4634, 4688]), chance.randrange(10**7))
    return "<14>1 %s %s Microsoft-Windows-Security-Auditing %d - %s %s" % (
        stamp(chance), name, chance.randrange(1, 9000), kind, text
    )


# What a Juniper firewall writes of a session: an element of thirteen parameters and no message.
def firewall(chance):
    values = [
        ("source-address", address(chance)), ("source-port", chance.randrange(65536)),
        ("destination-address", address(chance)),
        ("destination-port", chance.choice([53, 80, 443])),
        ("service-name", chance.choice(["junos-http", "junos-https", "None"])),
        ("nat-source-address", address(chance)), ("nat-source-port", chance.randrange(65536)),
        ("protocol-id", chance.choice([6, 17])),
        ("policy-name", "trust-to-untrust"), ("source-zone-name", "trust"), ("destination-zone-name", "untrust"),
        ("session-id-32", chance.randrange(10**6)), ("packet-incoming-interface", "ge-0/0/%d.0" % chance.randrange(8)),
    ]
    params = "".join(' %s="%s"' % it for it in values)
    return "<14>1 %s %s RT_FLOW - RT_FLOW_SESSION_CREATE [junos@2636.1.1.1.2.129%s]" % (
        stamp(chance), chance.choice(HOSTS), params
    )


# An exception of a Java program with its trace of some 2 KB, whose lines a sender joined by "#012" and tabs.
def java(chance):
    classes = [
        "org.apache.catalina.core.ApplicationFilterChain",
        "com.example.orders.OrderService",
        "java.base/java.lang.Thread",
    ]
    text = (
        'ERROR [http-nio-8080-exec-%d] c.e.o.OrderController'
        ' - Cannot read field "id" because "<local%d>" is null#012'
    ) % (chance.randrange(200), chance.randrange(9))
    calls = [
        "\tat %s.invoke(%s.java:%d)" % (it, it.split(".")[-1], chance.randrange(1000))
        for it in chance.choices(classes, k=chance.randrange(14, 28))
    ]
    return header(chance) + " - " + text + "#012".join(calls)


# A name, what makes a line, and for how many of the benchmark's lines one counts.
KINDS = [
    ("plain_5424", plain_5424, 1.0),
    ("elements_5424", elements_5424, 1.0),
    ("plain_3164", plain_3164, 1.0),
    ("long_5424", long_5424, 0.1),
    ("non_ascii_5424", non_ascii_5424, 1.0),
    ("mixed", mixed, 1.0),
    ("refused", refused, 1.0),
    ("programs_5424", programs_5424, 1.0),
    ("programs_3164", programs_3164, 1.0),
    ("senders_5424", senders_5424, 1.0),
    ("senders_3164", senders_3164, 1.0),
    ("iso_3164", iso_3164, 1.0),
    ("short", short, 1.0),
    ("blanks_outside", blanks_outside, 1.0),
    ("two_spaces_5424", two_spaces_5424, 1.0),
    ("broken_element_5424", broken_element_5424, 1.0),
    ("chinese_and_russian_5424", chinese_and_russian_5424, 1.0),
    ("containers", containers, 1.0),
    ("windows", windows, 1.0),
    ("firewall", firewall, 1.0),
    ("java", java, 0.2),
]


def filled(piece, size):
    return piece * (size // len(piece))


def numbered(piece, size):
    """Copies of the piece, each with a number of its own."""
    length = len(piece % 0) + 5
    return "".join(piece % it for it in range(100_000, 100_000 + max(1, size // length)))


def after(header, maker):
    return lambda size: header + maker(size)


# A name, and the text, of about this many bytes, where a list is read.
HOSTILE_LISTS = [
    ("open_quotes", lambda size: filled('[a" b="]', size)),
    ("open_values", lambda size: filled('[a b="]', size)),
    ("open_escapes", lambda size: filled('[a b="\\]', size)),
    ("open_value", lambda size: '[a b="' + filled("c", size)),
    ("value_of_brackets", lambda size: '[a b="' + filled("]", size)),
    ("escaped_value", lambda size: '[a b="' + filled("\\c", size) + '"] x'),
    ("open_brackets", lambda size: filled("[", size)),
    ("closed_brackets", lambda size: "[" + filled("]", size)),
    ("empty_brackets", lambda size: filled("[]", size)),
    ("many_elements", lambda size: filled('[a b="c"]', size)),
    ("one_wide_element", lambda size: "[a" + filled(' b="c"', size) + "]"),
    ("blanks_for_parameters", lambda size: "[a" + filled(" ", size) + "]"),
    ("dashes", lambda size: filled("- ", size) + "x"),
]

# A name, and the one line, of about this many bytes.
HOSTILE_LINES = [
    ("blanks_at_ends", lambda size: filled(" ", size // 2) + HEADER + "-" + filled(" ", size // 2)),
    ("leading_zeros", lambda size: "<" + filled("0", size) + "7>" + HEADER + "-"),
    ("version_nines", lambda size: filled("9", size) + " - - - - - -"),
    ("decimals", lambda size: "1 2020-01-01T00:00:00." + filled("1", size) + "Z h a 1 m - x"),
    ("host_colons", lambda size: "1 - " + filled(":", size) + "h a 1 m - x"),
    ("app_brackets", lambda size: "1 - h " + filled("[", size) + " 1 m - x"),
    ("process_zeros", lambda size: "1 - h a " + filled("0", size) + "7 m - x"),
    ("process_nines", lambda size: "1 - h a " + filled("9", size) + " m - x"),
    ("blanks_at_ends_3164", lambda size: filled(" ", size // 2) + HEADER_3164 + "x" + filled(" ", size // 2)),
    ("leading_zeros_3164", lambda size: "<" + filled("0", size) + "7>" + HEADER_3164 + "x"),
    ("day_zeros_3164", lambda size: "Oct " + filled("0", size) + "5 07:08:09 h a: x"),
    ("year_nines_3164", lambda size: "Oct 5 " + filled("9", size) + " 07:08:09 h a: x"),
    ("decimals_3164", lambda size: "2020-01-01T00:00:00." + filled("1", size) + "Z h a: x"),
    ("host_colons_3164", lambda size: "- " + filled(":", size) + "h a: x"),
    ("tag_brackets_3164", lambda size: "- host " + filled("[", size) + ": x"),
    ("form_brackets_3164", lambda size: "- host " + filled("[", size) + "]: x"),
    ("process_zeros_3164", lambda size: "- host app[" + filled("0", size) + "7]: x"),
    ("process_nines_3164", lambda size: "- host app[" + filled("9", size) + "]: x"),
]

# Lines that need as many rounds as they have colons or dashes, which settling skips: one kind each, and then two in one
# line, or after a piece that changes first.
SETTLING_LINES = [
    ("dashes_3164", after(HEADER_3164, dict(HOSTILE_LISTS)["dashes"])),
    ("last_colons_3164", lambda size: "- host" + filled(":", size) + " text"),
    ("colons_and_dashes_3164", lambda size: "- host" + filled(":", size // 2) + " " + filled("- ", size // 2) + "x"),
    ("colons_after_a_date_3164", lambda size: "0000-01-01T00:00:00+01:00 host" + filled(":", size) + " text"),
    ("dashes_after_a_process_3164", lambda size: "- host app[x:y]: " + filled("- ", size) + "x"),
    ("colons_of_a_dash_3164", lambda size: "- -" + filled(":", size) + " text"),
    ("colons_of_a_form_3164", lambda size: "- h[1]" + filled(":", size) + " text"),
    (
        "colons_and_a_list_3164"
        "", lambda size: "- host" + filled(":", size // 2) + " " + filled('[a b="c"]', size // 2) + " - x"
    ),
]

HOSTILE = [
    *((name, after(HEADER, maker)) for name, maker in HOSTILE_LISTS),
    *((name + "_3164", after(HEADER_3164, maker)) for name, maker in HOSTILE_LISTS if name != "dashes"),
    *HOSTILE_LINES,
    *SETTLING_LINES,
]


# What may cost a writer of JSON more than its length: what is gathered, and what is escaped.
HOSTILE_JSON = [
    (name, after(HEADER, maker))
    for name, maker in [
        ("values_of_one_name", lambda size: "[a" + filled(' b="c"', size) + "]"),
        ("values_of_two_names", lambda size: "[a" + filled(' b="c" d="e"', size) + "]"),
        ("different_names", lambda size: "[a" + numbered(' n%d="c"', size) + "]"),
        ("different_names_twice", lambda size: "[a" + 2 * numbered(' n%d="c"', size // 2) + "]"),
        ("elements_of_one_id", lambda size: filled('[a b="c"]', size)),
        ("elements_of_two_ids", lambda size: filled('[a b="c"][d e="f"]', size)),
        ("different_ids", lambda size: numbered('[i%d b="c"]', size)),
        ("long_names_that_differ_at_their_ends", lambda size: "[a" + numbered(" " + "n" * 200 + '%d="c"', size) + "]"),
        ("escapes_in_a_value", lambda size: '[a b="' + filled('\\"', size) + '"]'),
        ("backslashes_in_a_value", lambda size: '[a b="' + filled("\\\\", size) + '"]'),
        ("control_characters_in_a_value", lambda size: '[a b="' + filled("\x01", size) + '"]'),
        ("control_characters_in_names", lambda size: "[a" + filled(' \x01\x02="c"', size) + "]"),
        ("quotes_in_the_message", lambda size: "- " + filled('"', size) + "x"),
        ("control_characters_in_the_message", lambda size: "- x" + filled("\x01", size) + "x"),
    ]
] + [
    ("quotes_of_no_message", lambda size: filled('"', size)),
    ("control_characters_of_no_message", lambda size: "x" + filled("\x01", size) + "x"),
]


def corpus(wanted, lines):
    """The lines of the corpus of that name."""
    name, maker, share = next(it for it in KINDS if it[0] == wanted)
    chance = random.Random("syslog " + name)
    return [maker(chance) for _ in range(max(int(lines * share), 1))]


def corpora(lines):
    """Each corpus as its name and its lines."""
    for name, _, _ in KINDS:
        yield name, corpus(name, lines)


def write_lines(path, lines):
    """Writes the lines to a file, and answers its size in bytes."""
    data = "".join(line + "\n" for line in lines).encode()
    with open(path, "wb") as out:
        out.write(data)
    return len(data)


def main():
    folder = sys.argv[1]
    lines = int(sys.argv[2]) if len(sys.argv) > 2 else 200_000
    os.makedirs(folder, exist_ok=True)
    for name, made in corpora(lines):
        write_lines(os.path.join(folder, name), made)
    for name, maker in HOSTILE:
        for size in HOSTILE_SIZES:
            write_lines(os.path.join(folder, "hostile_%s_%dk" % (name, size)), [maker(size * 1024)])


if __name__ == "__main__":
    main()
