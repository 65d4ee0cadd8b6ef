"""What the senders of lines of samples/ mean, for tests/json and tests/support/collectors."""
from objects import rfc3164, rfc5424

# Lines of samples/ that the port misreads, with what their senders mean: how they begin, how much of that is no
# message, and the fields.
LOCAL4, LOCAL7 = {"facility": "local4"}, {"facility": "local7", "severity": "notice"}
SENT = {
    "<166>Mar 02 2026 06:33:04 edge-asa : %ASA-6-302013: ": (52, {
        "dialect": "cisco-asa", **LOCAL4, "severity": "info", "timestamp": "2026-03-02T06:33:04+00:00",
        "hostname": "edge-asa", "appname": "%ASA-6-302013"}),
    "<189>4211: core-sw1: *Nov 25 06:31:00.123: %SYS-5-CONFIG_I: ": (60, {
        "dialect": "cisco-ios", **LOCAL7, "timestamp": "2026-11-25T06:31:00.123+00:00", "hostname": "core-sw1",
        "appname": "%SYS-5-CONFIG_I"}),
    "<166>Nov 25 2026 06:31:02 edge-asa : %ASA-6-305011: ": (52, {
        "dialect": "cisco-asa", **LOCAL4, "severity": "info", "timestamp": "2026-11-25T06:31:02+00:00",
        "hostname": "edge-asa", "appname": "%ASA-6-305011"}),
    "<164>Nov 25 2026 06:31:03: %ASA-4-106023: ": (42, {
        "dialect": "cisco-asa", **LOCAL4, "severity": "warning", "timestamp": "2026-11-25T06:31:03+00:00",
        "appname": "%ASA-4-106023"}),
    "<14>Nov 25 06:31:05 PA-220 1,2026/11/25": (27, {
        "dialect": "palo-alto", "facility": "user", "severity": "info", "timestamp": "2026-11-25T06:31:05+00:00",
        "hostname": "PA-220"}),
    "<134>Mar  2 06:33:04 haproxy[73411]: ": (37, {
        "dialect": "no-host", "facility": "local0", "severity": "info", "timestamp": "2026-03-02T06:33:04+00:00",
        "appname": "haproxy", "procid": "73411"}),
    "<189>Nov 25 06:31:01 10.0.0.1 1234: Nov 25 06:31:00.123 UTC: %LINEPROTO-5-UPDOWN: ": (82, {
        "dialect": "cisco-ios", **LOCAL7, "timestamp": "2026-11-25T06:31:00.123+00:00", "hostname": "10.0.0.1",
        "appname": "%LINEPROTO-5-UPDOWN"}),
    "<189>Mar  2 06:33:04 core-sw1.example.net 4211: %LINK-3-UPDOWN: ": (64, {
        "dialect": "cisco-undated", **LOCAL7, "timestamp": "2026-03-02T06:33:04+00:00",
        "hostname": "core-sw1.example.net", "appname": "%LINK-3-UPDOWN"}),
    "<189>date=2026-11-25 time=06:31:06 devname=": (5, {
        "dialect": "key-value", **LOCAL7, "timestamp": "2026-11-25T06:31:06+00:00", "hostname": "FG100"}),
}

# What comes before the message in each line of samples/bytes.log, and its fields.
USER, AUTH = {"facility": "user", "severity": "info"}, {"facility": "auth", "severity": "info"}
INVALID = {
    "<14>Nov 25 06:33:01 buero-drucker druckdienst[512]: ": rfc3164(
        **USER, timestamp="2026-11-25T06:33:01+00:00", hostname="buero-drucker", appname="druckdienst", procid="512"),
    "<14>1 2026-11-25T06:33:02+09:00 pos-12 kasse 77 sale - ": rfc5424(
        **USER, timestamp="2026-11-25T06:33:02+09:00", hostname="pos-12", appname="kasse", procid="77", msgid="sale"),
    "<14>1 2026-11-25T06:33:03Z db3 postgres 2210 - - ": rfc5424(
        **USER, timestamp="2026-11-25T06:33:03+00:00", hostname="db3", appname="postgres", procid="2210"),
    "<13>Nov 25 06:33:04 WIN-DC01 agent: ": rfc3164(
        facility="user", severity="notice", timestamp="2026-11-25T06:33:04+00:00", hostname="WIN-DC01",
        appname="agent"),
    "<38>Nov 25 06:33:05 bastion sshd[20944]: ": rfc3164(
        **AUTH, timestamp="2026-11-25T06:33:05+00:00", hostname="bastion", appname="sshd", procid="20944"),
    "<38>Nov 25 06:33:06 bastion sshd[20945]: ": rfc3164(
        **AUTH, timestamp="2026-11-25T06:33:06+00:00", hostname="bastion", appname="sshd", procid="20945"),
}
