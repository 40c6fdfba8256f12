#!/usr/bin/env python3
"""Tests tools/rows_of_log.py: python3 tools/rows_of_log_test.py

The forms of logs are those of docs/CHECKING.md. The lines that are wanted follow docs/FORMATS.md.
"""
import subprocess
import sys
import tempfile
import unittest
from pathlib import Path

ROWS_OF_LOG = Path(__file__).resolve().parent / "rows_of_log.py"
sys.path.insert(0, str(ROWS_OF_LOG.parent))
import logs  # noqa: E402
import rows_of_log  # noqa: E402

ASKED, SAID = '{"id":1,"method":"session.status","params":{}}', '{"type":"success","id":1,"result":{"message":"it\'s \\"on\\"","n":1.0}}'
TALK = [(True, ASKED), (False, SAID)]

# A log in each form, with the messages that it has: the client sends ASKED, and SAID comes back.
FORMS = [
    ("marked lines", f"> {ASKED}\n< {SAID}\n", TALK),
    ("marked lines that end in CR LF", f"> {ASKED}\r\n< {SAID}\r\n", TALK),
    ("JSON lines", """\
{"dir":"sent","text":"{\\"id\\":1,\\"method\\":\\"session.status\\",\\"params\\":{}}"}
{"dir": "got", "text": "{\\"type\\":\\"success\\",\\"id\\":1,\\"result\\":{\\"message\\":\\"it's \\\\\\"on\\\\\\"\\",\\"n\\":1.0}}", "at": 5}
{"dir":"opened","text":"{}"}
""", TALK),
    ("geckodriver, with a second connection", f"""\
1700000000001\tgeckodriver\tINFO\tListening on 127.0.0.1:4444
1700000000002\tRemoteAgent\tTRACE\tWebDriverBiDiConnection 0a-1 -> {ASKED}
1700000000003\tRemoteAgent\tTRACE\tWebDriverBiDiConnection 0b-2 -> {{"id":9}}
1700000000004\tRemoteAgent\tTRACE\tWebDriverBiDiConnection 0a-1 <- {SAID}
""", TALK),
    ("Puppeteer, on one line and on three", f"""\
2026-01-01T00:00:00.000Z puppeteer:webDriverBiDi:SEND ► [
  '{ASKED}'
]
2026-01-01T00:00:00.001Z puppeteer:webDriverBiDi:RECV ◀ [ `{SAID.replace(chr(92), chr(92) * 2)}` ]
2026-01-01T00:00:00.002Z puppeteer:webDriverBiDi:RECV ◀ '{{"s":"it\\'s"}}'
""", [*TALK, (False, '{"s":"it\'s"}')]),
    ("Playwright", f"2026-01-01T00:00:00.000Z pw:protocol SEND ► {ASKED} +0ms\n  pw:protocol ◀ RECV {SAID} +12ms\n  pw:browser done\n", TALK),
    ("chromedriver", """\
[1700000000.001][INFO]: [a1] COMMAND ForwardBidiCommand {
   "bidiCommand": {
      "goog:channel": "/1",
      "id": 1,
      "method": "session.status",
      "params": {
      }
   },
   "connectionId": 1
}
[1700000000.002][DEBUG]: DevTools WebSocket Event: Runtime.bindingCalled (session_id=b) 2 {
   "executionContextId": 1,
   "name": "sendBidiResponse",
   "payload": {
      "goog:channel": "/1",
      "type": "success",
      "id": 1,
      "result": {
         "message": "it's \\"on\\"",
         "n": 1.0
      }
   }
}
[1700000000.003][DEBUG]: DevTools WebSocket Event: Runtime.bindingCalled (session_id=b) 3 {
   "name": "sendDebugMessage",
   "payload": "{}"
}
""", TALK),
    ("no log", "hello\n{\n[1]\n", [])]

CONTEXT, REALM = "00000000-0002-8000-8000-00000000000", "00000000-0003-8000-8000-00000000000"
INFO = '"originalOpener":null,"userContext":"default","clientWindow":"w","parent":null'
STARTED = '"context":"A","navigation":"N","timestamp":5,"url":"http://a.test/"'

# A conversation, and the lines that are wanted. In the conversation a line `=` answers the command above it.
ROWS = [
    ("a command that the profile lacks", """
> network.addIntercept {"phases":["beforeRequestSent"]}
= "result":{"intercept":"one"}""", """
answer {"method":"network.addIntercept","params":{"phases":["beforeRequestSent"]},"result":{"intercept":"one"}}"""),
    ("the answers to one command come in order, and the last one stays", """
> storage.getCookies {}
= "result":{"cookies":[1]}
> storage.getCookies {}
= "result":{"cookies":[2]}
> storage.getCookies {}
= "result":{"cookies":[2]}
> storage.getCookies {}
= "error":"unknown error","message":"m","stacktrace":"s"
""", """
answer {"method":"storage.getCookies","params":{},"error":"unknown error","message":"m"}
answer {"method":"storage.getCookies","params":{},"times":2,"result":{"cookies":[2]}}
answer {"method":"storage.getCookies","params":{},"times":1,"result":{"cookies":[1]}}"""),
    ("a row for more params comes later, so it is newer", """
> storage.getCookies {"filter":{"name":"a"}}
= "result":{"n":1}
> storage.getCookies {}
= "result":{"n":2}
> storage.getCookies {"filter":{}}
= "result":{"n":3}""", """
answer {"method":"storage.getCookies","params":{},"result":{"n":2}}
answer {"method":"storage.getCookies","params":{"filter":{}},"result":{"n":3}}
answer {"method":"storage.getCookies","params":{"filter":{"name":"a"}},"result":{"n":1}}"""),
    ("numbers stay as they are written", """
> emulation.set {"x":1e2,"y":-0}
= "result":{"n":[1.0,1e-400,12345678901234567890]}""", """
answer {"method":"emulation.set","params":{"x":1e2,"y":-0},"result":{"n":[1.0,1e-400,12345678901234567890]}}"""),
    ("params that a row would take as a pattern", """
> emulation.set {"x":[{"$starts":"a"}],"y":{"$contains":"a","b":1}}
= "result":{}""", """
answer {"method":"emulation.set","params":{"x":[{}],"y":{"$contains":"a","b":1}},"result":{}}"""),
    ("an error before the session, and then what the browser in memory answers", """
> browsingContext.getTree {}
= "error":"invalid session id","message":"m"
> session.new {"capabilities":{}}
= "result":{"sessionId":"s","capabilities":{}}
> browsingContext.getTree {}
= "result":{"contexts":[{"context":"A","url":"about:blank","children":[],%s}]}""" % INFO, """
answer {"method":"browsingContext.getTree","params":{},"times":1,"error":"invalid session id","message":"m"}"""),
    ("a failure that would hide a success has no row", """
> session.new {"capabilities":{}}
= "result":{"sessionId":"s","capabilities":{}}
> session.new {"capabilities":{}}
= "error":"session not created","message":"m\"""", ""),
    ("a script in a new tab", """
> browsingContext.activate {"context":"A"}
= "result":{}
> browsingContext.create {"type":"tab"}
< script.realmCreated {"realm":"R","origin":"null","type":"window","context":"B"}
= "result":{"context":"B"}
> script.evaluate {"expression":"1","target":{"context":"B"},"awaitPromise":true}
= "result":{"type":"success","result":{"type":"number","value":1},"realm":"R"}
> script.evaluate {"expression":"2","target":{"realm":"R"},"awaitPromise":true}
= "result":{"type":"success","result":{"type":"string","value":"A B"},"realm":"R"}""", f"""
answer {{"method":"script.evaluate","params":{{"expression":"1","target":{{"context":"{CONTEXT}2"}},"awaitPromise":true}},\
"result":{{"type":"success","result":{{"type":"number","value":1}},"realm":"{REALM}2"}}}}
answer {{"method":"script.evaluate","params":{{"expression":"2","target":{{"realm":"{REALM}2"}},"awaitPromise":true}},\
"result":{{"type":"success","result":{{"type":"string","value":"A B"}},"realm":"{REALM}2"}}}}"""),
    ("a sandbox and a source URL are left out", """
> script.callFunction {"functionDeclaration":"() => 1\\n//# sourceURL=a.js\\n","target":{"context":"A","sandbox":"s"},"awaitPromise":true}
= "result":{"type":"success","result":{"type":"undefined"},"realm":"S"}""", f"""
answer {{"method":"script.callFunction","params":{{"functionDeclaration":{{"$starts":"() => 1"}},"target":{{"context":"{CONTEXT}1"}},\
"awaitPromise":true}},"result":{{"type":"success","result":{{"type":"undefined"}},"realm":"S"}}}}"""),
    ("a navigation as the browser in memory does it, which ends a realm", f"""
> browsingContext.navigate {{"context":"A","url":"http://a.test"}}
< browsingContext.navigationStarted {{{STARTED}}}
= "result":{{"navigation":"N","url":"http://a.test/"}}
< browsingContext.load {{{STARTED}}}
> script.evaluate {{"expression":"1","target":{{"context":"A"}},"awaitPromise":true}}
= "result":{{"type":"exception","realm":"R"}}
> browsingContext.getTree {{"maxDepth":0}}
= "result":{{"contexts":[{{"context":"A","url":"http://a.test/","children":null,{INFO}}}]}}""", f"""
answer {{"method":"script.evaluate","params":{{"expression":"1","target":{{"context":"{CONTEXT}1"}},"awaitPromise":true}},\
"result":{{"type":"exception","realm":"{REALM}2"}}}}"""),
    ("a navigation with another event, and a tree after it", f"""
> browsingContext.navigate {{"context":"A","url":"http://a.test/"}}
< browsingContext.navigationStarted {{{STARTED}}}
= "result":{{"navigation":"N","url":"http://a.test/"}}
< browsingContext.navigationCommitted {{{STARTED}}}
> browsingContext.getTree {{}}
= "result":{{"contexts":[{{"context":"A","url":"http://a.test/","children":[],{INFO}}}]}}""", f"""
names browsingContext browsingContext.navigationCommitted
answer {{"method":"browsingContext.getTree","params":{{}},"result":{{"contexts":[\
{{"context":"{CONTEXT}1","url":"http://a.test/","children":[],{INFO}}}]}}}}
answer {{"method":"browsingContext.navigate","params":{{"context":"{CONTEXT}1","url":"http://a.test/"}},\
"result":{{"navigation":"N","url":"http://a.test/"}},\
"before":[{{"method":"browsingContext.navigationStarted","params":{{{STARTED}}}}}],\
"after":[{{"method":"browsingContext.navigationCommitted","params":{{{STARTED}}}}}]}}""".replace('"context":"A"', f'"context":"{CONTEXT}1"')),
    ("a navigation with another event after the next command", """
> browsingContext.navigate {"context":"A","url":"about:blank"}
= "result":{"navigation":"N","url":"about:blank"}
> network.other {}
< browsingContext.historyUpdated {"context":"A","navigation":"N"}
= "result":{}""", f"""
names browsingContext browsingContext.historyUpdated
answer {{"method":"network.other","params":{{}},"result":{{}},\
"before":[{{"method":"browsingContext.historyUpdated","params":{{"context":"{CONTEXT}1","navigation":"N"}}}}]}}
answer {{"method":"browsingContext.navigate","params":{{"context":"{CONTEXT}1","url":"about:blank"}},\
"result":{{"navigation":"N","url":"about:blank"}}}}"""),
    ("a navigation with a redirect, and the next one of the tab", f"""
> browsingContext.navigate {{"context":"A","url":"http://a.test/"}}
= "result":{{"navigation":"N","url":"http://b.test/"}}
> browsingContext.navigate {{"context":"A","url":"about:blank"}}
= "result":{{"navigation":"M","url":"about:blank"}}""", f"""
answer {{"method":"browsingContext.navigate","params":{{"context":"{CONTEXT}1","url":"about:blank"}},\
"result":{{"navigation":"M","url":"about:blank"}}}}
answer {{"method":"browsingContext.navigate","params":{{"context":"{CONTEXT}1","url":"http://a.test/"}},\
"result":{{"navigation":"N","url":"http://b.test/"}}}}"""),
    ("a navigation of the page, and the next one of the tab", f"""
> input.performActions {{"context":"A"}}
= "result":{{}}
< browsingContext.navigationStarted {{{STARTED}}}
> browsingContext.navigate {{"context":"A","url":"about:blank"}}
= "result":{{"navigation":"M","url":"about:blank"}}""", f"""
answer {{"method":"input.performActions","params":{{"context":"{CONTEXT}1"}},"result":{{}},\
"after":[{{"method":"browsingContext.navigationStarted","params":{{{STARTED}}}}}]}}
answer {{"method":"browsingContext.navigate","params":{{"context":"{CONTEXT}1","url":"about:blank"}},\
"result":{{"navigation":"M","url":"about:blank"}}}}""".replace('"context":"A"', f'"context":"{CONTEXT}1"')),
    ("a navigation with the realms that the browser in memory ends and makes", f"""
> session.subscribe {{"events":["script"]}}
< script.realmCreated {{"realm":"R","context":"A"}}
= "result":{{"subscription":"s"}}
> browsingContext.navigate {{"context":"A","url":"http://a.test/"}}
< script.realmDestroyed {{"realm":"R"}}
< script.realmCreated {{"realm":"S","context":"A"}}
= "result":{{"navigation":"N","url":"http://a.test/"}}
> script.evaluate {{"expression":"1","target":{{"realm":"S"}},"awaitPromise":true}}
= "result":{{"type":"exception","realm":"S"}}""", f"""
answer {{"method":"script.evaluate","params":{{"expression":"1","target":{{"realm":"{REALM}2"}},"awaitPromise":true}},\
"result":{{"type":"exception","realm":"{REALM}2"}}}}"""),
    ("a failure after a success gives both a row", f"""
> browsingContext.activate {{"context":"A"}}
= "result":{{}}
> browsingContext.activate {{"context":"A"}}
= "error":"unknown error","message":"m\"""", f"""
answer {{"method":"browsingContext.activate","params":{{"context":"{CONTEXT}1"}},"error":"unknown error","message":"m"}}
answer {{"method":"browsingContext.activate","params":{{"context":"{CONTEXT}1"}},"times":1,"result":{{}}}}"""),
    ("a tree after tabs were closed", f"""
> browsingContext.activate {{"context":"A"}}
= "result":{{}}
> browser.createUserContext {{}}
= "result":{{"userContext":"U"}}
> browsingContext.create {{"type":"tab","userContext":"U"}}
= "result":{{"context":"B"}}
> browsingContext.create {{"type":"tab"}}
= "result":{{"context":"C"}}
> browsingContext.close {{"context":"C"}}
= "result":{{}}
> browser.removeUserContext {{"userContext":"U"}}
= "result":{{}}
> browsingContext.getTree {{}}
= "result":{{"contexts":[{{"context":"A","url":"about:blank","children":[],{INFO}}}]}}""", ""),
    ("a tree with a frame", f"""
> browsingContext.getTree {{"root":"A"}}
= "result":{{"contexts":[{{"context":"A","url":"about:blank","children":[{{"context":"F"}}],{INFO}}}]}}""", f"""
answer {{"method":"browsingContext.getTree","params":{{"root":"{CONTEXT}1"}},"result":{{"contexts":[\
{{"context":"{CONTEXT}1","url":"about:blank","children":[{{"context":"F"}}],{INFO}}}]}}}}"""),
    ("an event with a command that has no row comes with the next row", """
> session.subscribe {"events":["network","log","script.message","network"]}
= "result":{"subscription":"s"}
> browsingContext.create {"type":"tab"}
< browsingContext.contextCreated {"context":"B"}
< log.entryAdded {"level":"info"}
= "result":{"context":"B"}
> network.other {}
< log.entryAdded {"level":"warn"}
= "result":{}""", """
names network script.message
answer {"method":"network.other","params":{},"result":{},"before":[{"method":"log.entryAdded","params":{"level":"info"}},\
{"method":"log.entryAdded","params":{"level":"warn"}}]}"""),
    ("user contexts", """
> browser.createUserContext {}
= "result":{"userContext":"U"}
> browsingContext.create {"type":"tab","userContext":"U"}
= "result":{"context":"B"}
> storage.getCookies {"partition":{"userContext":"U","context":"B"}}
= "result":{}""", f"""
answer {{"method":"storage.getCookies","params":{{"partition":{{"userContext":"00000000-0008-8000-8000-000000000001",\
"context":"{CONTEXT}2"}}}},"result":{{}}}}""")]

# What is refused: the arguments, the log, and the end of what is written to standard error.
REFUSED = [
    ("no file", ["{folder}/none"], "", "rows_of_log: cannot read {folder}/none: No such file or directory\n"),
    ("no command", ["-"], "hello\n", "rows_of_log: -: no command with an answer was found\n"),
    ("no log", [], "", "rows_of_log.py: error: the following arguments are required: LOG\n"),
    ("an option that does not exist", ["--log", "-"], "", "rows_of_log.py: error: unrecognized arguments: --log\n")]


def talk(text):
    """A conversation in full: the commands have the ids 1, 2 and so on."""
    number, lines = 0, []
    for line in text.strip().split("\n"):
        mark, rest = line.split(" ", 1)
        method, _, params = rest.partition(" ")
        number += mark == ">"
        lines.append({"=": f'< {{"type":"?","id":{number},{rest}}}', "<": f'< {{"type":"event","method":"{method}","params":{params}}}',
                      ">": f'> {{"id":{number},"method":"{method}","params":{params}}}'}[mark] + "\n")
    return "".join(lines)


def run(*arguments, text=""):
    ran = subprocess.run([sys.executable, ROWS_OF_LOG, *arguments], input=text.encode(), capture_output=True)
    return ran.returncode, ran.stdout.decode(), ran.stderr.decode()


class RowsOfLogTest(unittest.TestCase):
    def test_each_form_of_a_log_is_read(self):
        for name, text, wanted in FORMS:
            with self.subTest(name):
                self.assertEqual([(is_sent, logs.read(it)) for is_sent, it in logs.messages(text)],
                                 [(is_sent, logs.read(it)) for is_sent, it in wanted])

    def test_a_conversation_has_these_rows(self):
        for name, text, wanted in ROWS:
            with self.subTest(name):
                self.assertEqual(rows_of_log.lines_of(talk(text))[0], wanted.strip().split("\n") if wanted else [])

    def test_a_log_that_is_not_in_order_is_read(self):
        texts = ['{"id":1,"method":"a.b","params":{}}', '{"id":2,"method":"a.c","params":{}}', '{"id":3,"method":"a.d","params":{}}']
        log = "".join(f"> {it}\n" for it in [*texts, "[]", '{"id":1.0,"method":"a.b","params":{}}', "{"])
        log += '< {"id":2,"result":{}}\n< {"id":[],"result":{}}\n< {"id":1,"result":{}}\n< {"id":1,"result":{}}\n< {"id":null,"error":"e"}\n'
        lines, report = rows_of_log.lines_of(log)
        self.assertEqual(lines, ['answer {"method":"a.b","params":{},"result":{}}', 'answer {"method":"a.c","params":{},"result":{}}'])
        self.assertIn("1 commands without an answer", report)

    def test_a_host_has_a_limit_of_rows(self):
        log = "".join(f'> {{"id":{n},"method":"a.b{n}","params":{{}}}}\n< {{"id":{n},"result":{{}}}}\n' for n in range(1030))
        lines, report = rows_of_log.lines_of(log)
        self.assertEqual(len(lines), 1024)
        self.assertIn("6 rows", report)

    def test_the_script_writes_the_lines(self):
        with tempfile.TemporaryDirectory() as folder:
            (Path(folder) / "a.log").write_text(talk(ROWS[0][1]))
            status, written, _ = run(f"{folder}/a.log")
            self.assertEqual((status, written), (0, ROWS[0][2].lstrip("\n") + "\n"))

    def test_bad_input_is_refused(self):
        with tempfile.TemporaryDirectory() as folder:
            for name, arguments, text, wanted in REFUSED:
                with self.subTest(name):
                    status, written, said = run(*[it.format(folder=folder) for it in arguments], text=text)
                    self.assertEqual((status, written), (2, ""))
                    self.assertTrue(said.endswith(wanted.format(folder=folder)), said)


if __name__ == "__main__":
    unittest.main()
