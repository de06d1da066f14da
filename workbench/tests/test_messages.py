"""Messages: read, written, refused, and docs/messages.x over what rpcgen makes of it."""
import os
import re
import unittest

import tools
import messages
from crossings import loaded
from messages import Fault, Message, New, Run, SetRun, Shape, Value, View

RUNS = [('bump.c', 'open.script'), ('nic.c', 'nic.script'), ('probe.c', 'probe.script'), ('uart.c', 'uart.script')]
# the first messages of examples/bump.c, word by word
BUMP = [
    ('>', '1 1 0 0 f4240 0 0 0 1 0 0 0 1 0', Message('Call', func=1, depth=0, rest=1_000_000, args=[], deaths=[], news=[], view=[SetRun(0, 0, 1)], runs=[])),
    ('<', '3 0 1 1 1 1 0 0 0', Message('Down', ticks=1, at_func=1, at_stmt=1, depth=1, func=0, args=[], runs=[])),
    ('>', '4 0 f423e c 0 0 1 0 0 0 1 1 0 0 0 1 2 1',
     Message('Back', rest=999_998, result=Value(12), deaths=[], news=[], view=[SetRun(0, 0, 1)], runs=[Run(0, 0, [Value(2, 1)])])),
    ('<', '5 0 1 1 2 5 2 2 1 2 4 0 0 0',
     Message('Ask', ticks=1, at_func=1, at_stmt=2, service=5, args=[Value(2, 1), Value(2, 4)], shapes=[], bytes=b'', runs=[])),
    ('>', '6 0 0 0', Message('Answer', results=[], deaths=[], news=[])),
]
# one of each kind, with each kind of value
ONES = [
    Message('Call', func=3, depth=0, rest=1, args=[Value(0, 255), Value(1, 65535), Value(2, 2 ** 32 - 1), Value(3, 2 ** 64 - 1), Value(8)],
            deaths=[4, 5], news=[New(6, 'Heap', 9, 2), New(7, 'Auto', 2, 1)], view=[SetRun(6, 0, 4)], runs=[]),
    Message('Return', ticks=2, result=Value(12), runs=[Run(6, 1, [Value(4, -128), Value(5, -32768), Value(6, -2 ** 31), Value(7, -2 ** 63)])]),
    Message('Down', ticks=0, at_func=1, at_stmt=2, depth=3, func=4, args=[Value(9, View(6, 0, 9, 2, 1)), Value(10), Value(11, 5)], runs=[]),
    Message('Back', rest=0, result=Value(9, View(2 ** 40, 1, 2, 3, 4)), deaths=[], news=[New(0, 'Static', 0, 0)], view=[], runs=[]),
    Message('Ask', ticks=9, at_func=1, at_stmt=1, service=6, args=[], shapes=[Shape(2, 2 ** 33)], bytes=b'hello', runs=[]),
    Message('Answer', results=[Value(8)], deaths=[1], news=[]),
    Message('Stop', ticks=7, stop=3, at_func=2, at_stmt=0, runs=[]),
    Message('Refuse', reason=2),
]


def words(text):
    """Bytes by words of four, in hexadecimal digits without leading zeros."""
    return b''.join(int(it, 16).to_bytes(4, 'big') for it in text.split())


def plain(name):
    """A name without its case and its marks."""
    return name.strip().replace('_', '').lower()


class Messages(unittest.TestCase):
    def test_the_first_messages_of_a_run_are_read(self):
        sent = tools.split('bump.c', 'open.script').sent
        for (way, text, message), it in zip(BUMP, sent):
            self.assertEqual((it.is_down, it.size, it.message), (way == '>', 4 * len(text.split()), message))
            self.assertEqual(messages.written(message), words(text))

    def test_each_message_of_the_examples_is_written_as_it_came(self):
        for source, script in RUNS:
            text, _ = crossings_output(source, script)
            for line in [it for it in text.split('\n') if it.startswith(('> ', '< '))]:
                self.assertEqual(messages.written(messages.read(bytes.fromhex(line[2:]))).hex(), line[2:])

    def test_one_of_each_kind_goes_there_and_back(self):
        self.assertEqual([it.kind for it in ONES], list(messages.KINDS))
        for message in ONES:
            self.assertEqual(messages.read(messages.written(message)), message)

    def test_what_is_no_message_is_refused_with_its_offset(self):
        for text, kind, offset in [('', 'Short', 0), ('9', 'Kind', 0), ('8', 'Short', 4), ('8 1 0', 'Trailing', 8), ('2 0 0 d 0', 'Kind', 12),
                                   ('2 0 0 0 100 0', 'Range', 16), ('2 0 0 4 80 0', 'Range', 16), ('6 0 0 1 0 0 3 0 0', 'Range', 24),
                                   ('5 0 0 0 0 6 0 0 1 41000001 0', 'Padding', 39)]:
            with self.assertRaises(Fault, msg=text) as found:
                messages.read(words(text))
            self.assertEqual((found.exception.kind, found.exception.offset), (kind, offset), text)

    def test_a_transcript_ends_with_the_number_of_its_messages(self):
        transcript = messages.transcript('call f\nend ok\n> 0000000800000001\nmessages 1\n')
        self.assertEqual((transcript.report, len(transcript.sent)), (['call f', 'end ok'], 1))
        for text in ('end ok\n> 0000000800000001\nmessages 2\n', 'messages 0\nend ok\n'):
            with self.assertRaises(ValueError):
                messages.transcript(text)

    def test_numbers_are_those_of_the_definitions(self):
        definitions = tools.read(os.path.join(tools.TOP, 'crates', 'mdr_model', 'specs', 'ReplyFaults.antt'))
        stops = {int(number): name for name, number in re.findall(r'^stop_number stop\.(\w+) = ([0-9]+)$', definitions, re.M)}
        self.assertEqual(stops, dict(enumerate(messages.STOPS[1:], 1)))
        definitions = tools.read(os.path.join(tools.TOP, 'crates', 'mdr_core', 'specs', 'Services.antt'))
        services = re.search(r'^services =\s+(.*?)∷ \[\]', definitions, re.M | re.S)[1].split('∷')
        self.assertEqual([plain(it) for it in services if it.strip()][:14], [plain(it) for it in messages.SERVICES[1:15]])
        described = dict(re.findall(r'const (\w+) = ([0-9]+);', tools.read(os.path.join(tools.TOP, 'docs', 'messages.x'))))
        for name, number in described.items():
            table = {'SERVICE': messages.SERVICES, 'STOP': messages.STOPS}.get(name.split('_')[0])
            if table:
                self.assertEqual(plain(table[int(number)]), plain(name.split('_', 1)[1]))

    def test_what_rpcgen_makes_of_the_description_reads_and_writes_them(self):
        tool = loaded('workbench', 'messages-x')
        if tool.wanting():
            self.skipTest(f'{tool.wanting()} isn\'t there')
        wire = [messages.written(it).hex() for it in ONES]
        for source, script in RUNS:
            wire += [messages.written(it.message).hex() for it in tools.split(source, script).sent]
        wrong = [words('8 1 0').hex(), words('2 0 0 d 0').hex(), words('9').hex()]
        with tool.tempfile.TemporaryDirectory() as folder:
            again = tool.compiled(folder)
            self.assertEqual(tool.differences(again, wire), [])
            self.assertEqual([its for _, its in tool.differences(again, wrong)], ['left over', 'none', 'none'])


def crossings_output(source, script):
    return tools.crossings.output(tools.program(), ['run', 'split', tools.example(source), tools.example(script), '--wire'])


if __name__ == '__main__':
    unittest.main()
