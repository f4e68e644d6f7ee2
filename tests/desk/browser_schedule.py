"""The part Schedule: its message and blocks beside what cbwrite writes, what it says of octets and slots, and refusals."""
import base64
import os
import random
import re
import subprocess

TOP = os.path.dirname(os.path.dirname(os.path.dirname(os.path.abspath(__file__))))
DATA = os.path.join(TOP, 'crates/cbcheck/data')
# .ci/x86 says what stands before a program on a machine that isn't x86-64.
COMMAND = '. .ci/x86 && exec "${x86_program[@]}" target/bin/cbwrite "$@"'
LABELS = 'return [...document.querySelectorAll(arguments[0])].map((element) => element.getAttribute("aria-label"))'
ROWS = 'return [...document.querySelectorAll(arguments[0])].map((row) => [...row.children].map((cell) => cell.textContent))'


def plan(*entries):
    """A plan file of entries in hex."""
    return b'CBP\x00\x01' + bytes([len(entries)]) + b''.join(bytes.fromhex(entry) for entry in entries)


def data(name):
    """The octets of a stored plan."""
    with open(os.path.join(DATA, name), 'rb') as file:
        return file.read()


OPTIONAL, ADVISED, NONE = '000000000000', '010000000000', plan()
FIVE, BEFORE = data('five.plan'), data('before.plan')
# docs/FORMATS.md, 7
WORKED = plan('020010800111', OPTIONAL, '020021123412', ADVISED, '020010800111')
WORKED_BEFORE = plan('020021123412')


def own_pages(count, different):
    """A plan of so many slots with so many different pages."""
    return plan(*(f'02{n % different:04X}{0x8000 + n % different:04X}11' for n in range(count)))


def some_plan(rolls):
    """A plan by chance, of few pages, with zero halves among their parameters."""
    pages = ['0200' + rolls.choice(['00', '01', '02']) + rolls.choice(['8001', '0001', '7FFF']) +
             rolls.choice(['00', '11', '10', '12', '22']) for _ in range(12)]
    return plan(*(rolls.choice([OPTIONAL, ADVISED] + pages) for _ in range(rolls.randrange(1, 49))))


def cbwrite(page, current, previous, begin):
    """What cbwrite writes, and what it says."""
    if not os.path.exists(os.path.join(TOP, 'target/bin/cbwrite')):
        raise FileNotFoundError('target/bin/cbwrite is not there; ./run cbwrite makes it')
    files = [page.path('plan', octets) for octets in (current, previous)]
    ran = subprocess.run(['bash', '-c', COMMAND, 'bash', *files, str(begin)], cwd=TOP, capture_output=True, check=False)
    return ran.stdout, ran.stderr.decode()


def show(page, current, previous, begin):
    """Opens the part with these plans."""
    texts = [base64.urlsafe_b64encode(octets).decode().rstrip('=') for octets in (current, previous)]
    page.open(f'#part=schedule&current={texts[0]}&previous={texts[1]}&begin={begin}')


def saved(page, what):
    """The octets that blocks or message are saved as."""
    page.click(f'#schedule-save-{what}')
    return page.download(f'schedule.{what}')


def holds_items(page, message, used):
    """Each used octet is said once, in its order, with its own digits, and each slot once."""
    items = page.run(ROWS, '#schedule-items tbody tr')
    places = [int(place) for octets, *_ in items for place in re.findall(r'\d+', octets)]
    assert sorted(places) == places and set(places) == set(range(1, used + 1)), places
    assert ' '.join(digits for _, digits, *_ in items) == message[:used].hex(' ').upper()
    slots = [int(re.match(r'slot (\d+)', says)[1]) for _, _, says, planned in items if planned]
    assert sorted(slots) == list(range(1, message[1] + 1)), slots
    cells = page.all('#schedule-grid td')
    assert [cell.text for cell in cells] == [f'{octet:02X}' for octet in message]
    rest = [cell.get_attribute('class') for cell in cells].count('schedule-rest')
    assert rest == 88 - used and page.text('#schedule-used') == f'{used} of 88 octets used'


def test_blocks_and_message_beside_cbwrite(page):
    rolls = random.Random(1989)
    cases = [(FIVE, BEFORE, begin) for begin in range(1, 6)] + [(FIVE, NONE, 1), (BEFORE, FIVE, 1), (FIVE, FIVE, 2)]
    cases += [(WORKED, WORKED_BEFORE, 1), (own_pages(48, 32), NONE, 48), (own_pages(40, 40), own_pages(40, 20), 7)]
    cases += [(plan(*[OPTIONAL] * 48), NONE, 1), (plan(*[ADVISED] * 48), NONE, 48)]
    cases += [(plan('020010800100', '020010800111'), NONE, 1)]
    cases += [(some_plan(rolls), some_plan(rolls), 1) for _ in range(6)]
    for current, previous, begin in cases:
        wanted, errors = cbwrite(page, current, previous, begin)
        assert len(wanted) == 92, errors
        show(page, current, previous, begin)
        assert saved(page, 'blocks') == wanted, (current.hex(), previous.hex(), begin)
        message = saved(page, 'message')
        assert message == b''.join(wanted[at + 1:at + 23] for at in range(0, 92, 23))
        shown = [row[1] for row in page.run(ROWS, '#schedule-blocks tr')]
        assert shown == [wanted[at:at + 23].hex(' ').upper() for at in range(0, 92, 23)]
        holds_items(page, message, len(message.rstrip(b'\x2b')))


def test_the_sample_typed_and_written(page):
    page.click('#plan-sample')
    page.click('#tab-schedule')
    page.fill('#schedule-begin', '3')
    assert saved(page, 'blocks') == cbwrite(page, FIVE, BEFORE, 3)[0]
    assert '92 octets are saved as schedule.blocks' in page.text('#status')


def test_refusals(page):
    stray = plan(OPTIONAL, '010000000001')
    for current, previous, begin, words in [
            (NONE, NONE, 1, 'Refused by 35: the current plan has no slots.'), (FIVE, BEFORE, 6, 'Refused by 21: Begin 6: '),
            (FIVE, BEFORE, 0, 'Refused by 21: Begin 0: '), (own_pages(41, 41), NONE, 1, 'Refused by 34: the descriptions need'),
            (own_pages(48, 33), NONE, 1, 'Refused by 34: '), (stray, BEFORE, 1, 'Refused by 37: the current plan: entry 2: '),
            (FIVE, stray, 1, 'Refused by 37: the previous plan: entry 2: ')]:
        show(page, current, previous, begin)
        assert words in page.text('#schedule-said'), (words, page.text('#schedule-said'))
        number = re.search(r'refused by \d+', cbwrite(page, current, previous, begin)[1])[0]
        assert number.capitalize() in page.text('#schedule-said')
        assert not page.find('#schedule-shown').is_displayed() and not page.find('#schedule-save-blocks').is_enabled()
    page.click('#schedule-plan')
    assert page.find('#plan').is_displayed()


def test_begin_as_it_is_typed(page):
    show(page, FIVE, BEFORE, 1)
    for text, words in [('', '21: Begin is empty'), ('0', '21: Begin 0'), ('6', '21: Begin 6'), ('-1', '21: Begin -1'),
                        ('99999999999', '21: Begin 99999999999'), ('1.5', '21: Begin 1.5')]:
        page.fill('#schedule-begin', text)
        assert f'Refused by {words}' in page.text('#schedule-said'), (text, page.text('#schedule-said'))
    page.fill('#schedule-begin', '5')
    assert page.text('#schedule-said') == '' and page.text('#schedule-grid td') == '05'


def test_what_octets_say(page):
    show(page, WORKED, WORKED_BEFORE, 1)
    labels = page.run(LABELS, '#schedule-grid td')
    assert labels[:16] == [
        'Octet 1: 01, type 0, Begin 1: slot 1 comes after this message.', 'Octet 2: 05, End 5: 5 slots.',
        'Octet 3: 98, new of slots 1 to 8: 1, 4, 5.', 'Octet 4: 00, new of slots 9 to 16: none.',
        'Octet 5: 00, new of slots 17 to 24: none.', 'Octet 6: 00, new of slots 25 to 32: none.',
        'Octet 7: 00, new of slots 33 to 40: none.', 'Octet 8: 00, new of slots 41 to 48: none.',
        'Octet 9: 80, slot 1, new: first transmission of 0001.', 'Octet 10: 01, slot 1, new: first transmission of 0001.',
        'Octet 11: 41, slot 4, new: advised.', 'Octet 12: 01, slot 5, new: repeat of slot 1.',
        'Octet 13: 40, slot 2: optional.',
        'Octet 14: 92, slot 3: first transmission of 1234.', 'Octet 15: 34, slot 3: first transmission of 1234.',
        'Octet 16: 2B, not used.'], labels[:16]
    page.press('#schedule-grid td', 'ARROW_DOWN', 'ARROW_RIGHT', 'ARROW_RIGHT')
    assert page.text('#schedule-told') == labels[10]
    assert page.run(ROWS, '#schedule-items .schedule-pointed') == [['11', '41', 'slot 4, new: advised', 'advised']]
    page.press(None, 'END')
    assert page.text('#schedule-told') == 'Octet 88: 2B, not used.' and page.all('.schedule-pointed') == []
    page.run("arguments[0].dispatchEvent(new MouseEvent('mouseover', { bubbles: true }))", page.all('#schedule-grid td')[13])
    assert page.text('#schedule-told') == labels[13] and len(page.all('#schedule-grid .schedule-pointed')) == 2
    pointed = page.run(LABELS, '#schedule-strip .schedule-pointed')
    assert pointed == ['Slot 3: first transmission of 1234; planned: 0021 1234 page 1 of 2.']


def test_the_picture_of_the_slots(page):
    show(page, FIVE, BEFORE, 3)
    labels = page.run(LABELS, '#schedule-strip g')
    assert labels == [
        'Slot 1: first transmission of 1111, new; planned: 0010 1111 page 1 of 1.', 'Slot 2: advised, new; planned: advised.',
        'Slot 3: first transmission of 2222; planned: 0020 2222 page 1 of 1.',
        'Slot 4: repeat of slot 1, new; planned: 0010 1111 page 1 of 1.', 'Slot 5: optional; planned: optional.',
    ] + [f'Slot {slot}: past End.' for slot in range(6, 49)], labels
    letters = [element.text for element in page.all('#schedule-strip .letter')]
    assert letters == ['F', 'A', 'F', 'R', 'O'] + [''] * 43
    assert len(page.all('#schedule-strip .line')) == 1 and len(page.all('#schedule-strip circle')) == 3
    page.press('#schedule-strip g', 'ARROW_RIGHT', 'ARROW_RIGHT', 'ARROW_RIGHT')
    assert page.text('#schedule-told') == labels[3]
    page.press(None, 'END')
    assert page.text('#schedule-told') == 'Slot 48: past End.'


def test_widths_colours_and_paper(page):
    show(page, own_pages(48, 32), FIVE, 12)
    page.fits('schedule')
    page.size(718, 1000)
    page.media('print')
    if page.browser == 'chromium':
        assert page.text('h1') == 'Csobvarit desk: Schedule' and not page.find('#schedule-save-blocks').is_displayed()
        assert page.run('return document.documentElement.scrollWidth') <= 718
        assert page.run("return document.querySelector('#schedule-strip').getBoundingClientRect().right") <= 718
    page.media('')
    page.pdf('schedule')
