"""The part Plan, and the frame that all parts stand in: rows typed, pasted, opened and saved; tabs, address, closing."""
import os
import urllib.parse

TOP = os.path.dirname(os.path.dirname(os.path.dirname(os.path.abspath(__file__))))
DATA = os.path.join(TOP, 'crates/cbcheck/data')
FIELDS = ['kind', 'serial', 'identifier', 'page', 'total']
HEAD = b'CBP\x00\x01'


def data(name):
    """The octets of a stored plan."""
    with open(os.path.join(DATA, name), 'rb') as file:
        return file.read()


FIVE = data('five.plan')
FIVE_ROWS = ['2 0010 1111 1 1', '1', '2 0020 2222 1 1', '2 0010 1111 1 1', '0']


def plan(*entries):
    """A plan file of entries in hex."""
    return HEAD + bytes([len(entries)]) + b''.join(bytes.fromhex(entry) for entry in entries)


def field(row, name, which='current'):
    """The selector of a field."""
    return f'#plan-{which}-{row} [data-plan={name}]'


def rows(page, which='current'):
    """The rows up to the open one, each in a line."""
    return page.run("""
        const shown = document.querySelectorAll(`#plan-${arguments[0]}-rows tr.plan-row:not(.plan-open):not([hidden])`);
        return [...shown].map((row) =>
            arguments[1].map((name) => row.querySelector(`[data-plan=${name}]`).value).join(' ').trim())""", which, FIELDS)


def said(page, which='current'):
    """What is said at a plan about what was not done."""
    return page.text(f'#plan-{which}-said')


def saved(page, which='current'):
    """The octets that the plan is saved as."""
    page.click(f'#plan-{which}-save')
    return page.download(f'{which}.plan')


def choose_kind(page, row, kind, which='current'):
    """Chooses a kind by its first letter."""
    page.press(field(row, 'kind', which), kind[0])


def new_slots(page):
    """The slots marked as new."""
    marks = page.all('#plan-current-rows tr.plan-row [data-plan=new]')
    return [slot for slot, mark in enumerate(marks, 1) if mark.is_displayed()]


def open_five(page):
    """Opens the stored plans."""
    page.choose('#plan-current-input', 'five.plan', FIVE)
    page.wait(lambda: rows(page) == FIVE_ROWS, 'five.plan')
    page.drop('#plan-previous', 'before.plan', data('before.plan'))
    page.wait(lambda: rows(page, 'previous') == ['2 0020 2222 1 1'], 'before.plan')


def unsaved(page):
    """Whether closing the page asks."""
    return page.run("return !window.dispatchEvent(new Event('beforeunload', { cancelable: true }))")


def refused_paste(page, text, *words):
    """Pastes what must change nothing, and be answered by these words."""
    before = rows(page)
    page.paste(field(1, 'serial'), text)
    for word in ('Nothing was pasted',) + words:
        assert word in said(page), (text, word, said(page))
    assert rows(page) == before, rows(page)


def test_tabs_by_keys_and_by_the_address(page):
    assert page.find('#tab-plan').get_attribute('aria-selected') == 'true'
    page.press('#tab-plan', 'ARROW_RIGHT')
    assert page.find('#schedule').is_displayed() and not page.find('#plan').is_displayed()
    page.press(None, 'END')
    assert page.find('#log').is_displayed()
    page.press(None, 'ARROW_RIGHT')
    assert page.find('#plan').is_displayed()
    page.press(None, 'ARROW_LEFT', 'ARROW_LEFT')
    page.wait(lambda: 'part=text' in page.address(), 'the tab in the address')
    page.driver.refresh()
    page.wait(lambda: page.find('#text').is_displayed(), 'the tab after a reload')
    assert page.run('return document.title') == 'Csobvarit desk: Text'


def test_rows_are_typed(page):
    assert rows(page) == [] and not unsaved(page)
    page.fill(field(1, 'serial'), '10')
    assert 'Identifier: missing' in page.text('#plan-current-wrong-1')
    page.press(None, 'TAB')
    assert page.value(field(1, 'serial')) == '0010'
    page.press(None, *'8001')
    assert page.text('#plan-current-wrong-1') == '' and page.text(field(1, 'octet')) == '11'
    choose_kind(page, 2, 'advised')
    choose_kind(page, 3, 'optional')
    page.fill(field(4, 'serial'), 'a0b1')
    page.press(None, 'TAB', *'fffe', 'TAB', 'CONTROL+a', *'15', 'TAB', 'CONTROL+a', *'0', 'TAB')
    assert rows(page) == ['2 0010 8001 1 1', '1', '0', '2 A0B1 FFFE 15 0'] and unsaved(page)
    assert saved(page) == plan('020010800111', '010000000000', '000000000000', '02A0B1FFFEF0')
    assert not unsaved(page)


def test_what_is_wrong_is_said_at_its_row(page):
    open_five(page)
    page.fill(field(2, 'serial'), '12')
    page.fill(field(5, 'total'), '3')
    for row in (2, 5):
        assert page.text(f'#plan-current-wrong-{row}').endswith('Refused by 37: an entry with no page has octets of a page.')
    assert 'Refused by 37 at slot 2' in page.text('#plan-current-verdict')
    page.fill(field(1, 'identifier'), 'xyz')
    assert '“xyz” is not one to four hex digits' in page.text('#plan-current-wrong-1')
    assert page.find(field(1, 'identifier')).get_attribute('aria-invalid') == 'true'
    assert page.value(field(1, 'identifier')) == 'xyz' and new_slots(page) == []
    page.click('#plan-current-save')
    assert 'Not saved' in said(page)
    page.fill(field(3, 'page'), '16')
    assert '“16” is not a number from 0 to 15' in page.text('#plan-current-wrong-3')
    for row, name, text in [(1, 'identifier', '1111'), (2, 'serial', ''), (3, 'page', '1'), (5, 'total', '')]:
        page.fill(field(row, name), text)
    assert saved(page) == FIVE


def test_rows_by_keys_and_buttons(page):
    open_five(page)
    one, two, three, four, five = FIVE_ROWS
    page.press(field(1, 'serial'), 'ALT+ARROW_DOWN')
    assert rows(page) == [two, one, three, four, five]
    page.press(None, 'ALT+ARROW_UP', 'ALT+INSERT')
    assert rows(page) == ['0', one, two, three, four, five]
    page.press(None, 'ALT+DELETE', 'ARROW_DOWN', 'ENTER', 'ALT+DELETE')
    assert rows(page) == [one, two, four, five]
    for button, left in [('clear', [one, two, '0', five]), ('up', [one, '0', two, five]), ('down', [one, two, '0', five]),
                         ('remove', [one, two, five]), ('insert', [one, two, '0', five]), ('empty', [])]:
        page.click(f'#plan-current-{button}')
        assert rows(page) == left, (button, rows(page))
    for _ in range(6):
        page.click('#plan-undo')
    assert rows(page) == [one, two, four, five]
    page.paste(field(1, 'serial'), 'optional\n' * 48)
    page.press(field(48, 'serial'), 'ALT+INSERT')
    assert 'There are 48 slots' in said(page) and rows(page) == ['0'] * 48


def test_a_kind_chosen_brings_and_takes_the_page(page):
    choose_kind(page, 1, 'page')
    assert rows(page) == ['2   1 1'] and 'Serial number: missing' in page.text('#plan-current-wrong-1')
    page.press(None, 'ARROW_DOWN')
    assert rows(page) == ['1'] and page.text('#plan-current-wrong-1') == ''


def test_pastes(page):
    wanted = ['2 0010 8001 1 1', '1', '2 00AB 0012 2 3', '0']
    plain = [['page', '10', '8001', '1', '1'], ['Advised', '', '', '', ''], ['page', 'ab', '12', '2', '3'], ['optional']]
    for separator in '\t,;':
        for end in ('\n', '\r\n', '\r'):
            page.click('#plan-current-empty')
            page.paste(field(1, 'kind'), end.join(separator.join(line) for line in plain) + end)
            assert rows(page) == wanted, (separator, end, rows(page), said(page))
    texts = {
        'hex headings': 'Slot;Kind;Serial (hex);Message identifier;Page;Total\n'
                        '1;page;10;8001;1;1\n2;advised;;;;\n3;page;AB;12;2;3\n4;optional;;;;',
        'decimal headings': 'kind\tserial no. dec\tidentifier (dec)\ttotal\tpage\npage\t16\t32769\t1\t1\n'
                            'advised\npage\t171\t18\t3\t2\noptional\t\t\t\t\n\n',
        'a heading decimal': 'decimal\nkind,serial,id,parameter\npage,16,32769,17\n\n1\npage,171,18,35\n0\n',
        'a heading hex': 'hex,kind,serial,id,parameter\n,page,10,8001,11\n,advised\n,page,AB,12,23\n,optional\n',
        'quotes': '"Kind","Serial ""number""","Identifier","Page","of","Remark"\n"page","0010","0x8001","1","1","a, b"\n'
                  'advised,,,,,\n"page",00AB,0012,"2","3","two\nlines"\n"optional"\n',
        'slots': 'slot,kind,serial,identifier,page,total\n4,optional\n2,advised\n1,page,10,8001,,\n3,page,ab,12,2,3\n',
    }
    for name, text in texts.items():
        page.click('#plan-current-empty')
        page.paste(field(1, 'serial'), text)
        assert rows(page) == wanted, (name, rows(page), said(page))
    page.click('#plan-current-empty')
    page.paste(field(1, 'serial'), 'serial;identifier;remark\n1;2;x\n3;4;y')
    assert rows(page) == ['2 0001 0002 1 1', '2 0003 0004 1 1'] and 'Columns passed over: remark' in page.text('#status')


def test_a_paste_goes_on_from_its_row(page):
    open_five(page)
    page.click(field(5, 'total'))
    page.paste(field(5, 'total'), 'page;1;2;1;1\nadvised\n')
    assert rows(page) == FIVE_ROWS[:4] + ['2 0001 0002 1 1', '1']
    page.paste(field(2, 'kind'), 'optional;;;;')
    assert rows(page) == [FIVE_ROWS[0], '0'] + FIVE_ROWS[2:4] + ['2 0001 0002 1 1', '1']
    page.run("document.querySelector(arguments[0]).value = ''", field(1, 'serial'))
    page.paste(field(1, 'serial'), '4A31')
    assert rows(page)[0] == '2 4A31 1111 1 1', 'a single cell is an ordinary paste'


def test_a_wrong_paste_changes_nothing(page):
    open_five(page)
    refused_paste(page, 'page;1;2;1;1\npage;xyz;2;1;1', 'line 2', 'serial', '“xyz” is not a hex number up to FFFF')
    refused_paste(page, 'kind;serial (dec)\n\npage;70000', 'line 3', '“70000” is not a decimal number up to 65535')
    refused_paste(page, 'page;1;2;1;1\nnine;1;2;1;1', 'line 2', '“nine” is none of page, advised, optional')
    refused_paste(page, 'optional\n9;1;2;1;1', 'line 2', 'Refused by 36: an entry\'s kind is none of 0, 1, 2')
    refused_paste(page, 'optional\nadvised;1', 'line 2', 'Refused by 37')
    refused_paste(page, 'page;1;2;16;1', 'line 1', 'page: “16” is not a decimal number up to 15')
    refused_paste(page, 'page;1;2;1', 'line 1', 'the total is missing')
    refused_paste(page, 'page;1;;1;1', 'line 1', 'the identifier is missing')
    refused_paste(page, 'page;1;2;1;1;6', 'line 1', 'without headings there are 5 columns')
    refused_paste(page, 'kind;serial;id;page;total;parameter\npage;1;2;1;1;12', 'line 2', 'parameter 12 is not the page')
    refused_paste(page, 'serial;serial\n1;2', 'line 1', 'two columns are headed serial')
    refused_paste(page, 'slot;kind\n7;optional', 'line 2', 'slot 6 before it has no row')
    refused_paste(page, 'slot;kind\n1;optional\n1;optional', 'line 3', 'slot 1 comes twice')
    refused_paste(page, 'slot;kind\n49;optional', 'line 2', 'there is no slot 49')
    refused_paste(page, 'slot;kind\n;optional', 'line 2', 'the slot is missing')
    refused_paste(page, 'optional\n' * 49, 'line 49', 'there is no slot 49')
    refused_paste(page, 'slot;kind;serial\n\n', 'there are no rows')
    refused_paste(page, 'page;"1;2\n', 'line 1', 'a quotation mark')


def test_files_are_opened_and_saved(page):
    open_five(page)
    assert not unsaved(page) and new_slots(page) == [1, 2, 4]
    assert saved(page) == FIVE and saved(page, 'previous') == data('before.plan')
    every = plan(*(f'020001{n:04X}{n:02X}' for n in [0x00, 0x01, 0x10, 0x0F, 0xF0, 0x21, 0xFF]))
    most = plan(*(f'02{n:04X}{0xFFFF - n:04X}11' for n in range(48)))
    for octets in (every, most, plan()):
        page.drop('#plan-current', 'other.plan', octets)
        page.wait(lambda: 'other.plan is the current plan now' in page.text('#status'), 'other.plan')
        assert saved(page) == octets


def test_bad_files_are_refused(page):
    open_five(page)
    page.fill(field(5, 'serial'), 'half')
    before = rows(page)
    full = plan(*['000000000000'] * 48)
    nine = plan(*(['020010111111'] * 6 + ['090000000000'] + ['000000000000'] * 3))
    for name, octets, words in [
            ('empty', b'', '32: empty: the file is short'), ('five', b'CBP\0\1', '32: five: the file is short'),
            ('mark', b'CBQ' + FIVE[3:], '30: mark: the file does not begin with CBP'),
            ('version', FIVE[:4] + b'\2' + FIVE[5:], "31: version: the file's version is not 1"),
            ('zeros', bytes(3 << 20), '30: zeros: the file does not begin with CBP'),
            ('long', FIVE + bytes(3 << 20), '32: long: the file is short, counts over 48 slots, or is not as long'),
            ('over', HEAD + b'\x31' + bytes(294), '32: over: the file is short'),
            ('more', full + b'\0', '32: more: the file is short'),
            ('much', full + bytes(3 << 20), '32: much: the file is short'),
            ('nine', nine, "36: nine: entry 7: an entry's kind is none of 0, 1, 2"),
            ('stray', plan('000000000000', '010000000001'), '37: stray: entry 2: an entry with no page')]:
        page.drop('#plan-current', name, octets)
        page.wait(lambda: f'Refused by {words}' in said(page), f'{name}: {words}; it says {said(page)}')
        assert page.text('#status').startswith(f'Refused by {words}') and rows(page) == before, name
        page.choose('#plan-previous-input', name, octets)
        page.wait(lambda: f'Refused by {words}' in said(page, 'previous'), name)
        assert rows(page, 'previous') == ['2 0020 2222 1 1'], name


def test_what_is_new_and_the_next_period(page):
    page.click('#plan-sample')
    assert saved(page) == FIVE and saved(page, 'previous') == data('before.plan') and new_slots(page) == [1, 2, 4]
    page.click('#plan-next')
    assert rows(page, 'previous') == rows(page) == FIVE_ROWS and new_slots(page) == [2]
    page.fill(field(1, 'total'), '0')
    assert new_slots(page) == [2], 'a zero half is page 1 of 1'
    page.fill(field(1, 'total'), '2')
    assert new_slots(page) == [1, 2]
    page.click('#plan-undo')
    assert rows(page) == FIVE_ROWS and rows(page, 'previous') == FIVE_ROWS
    page.click('#plan-undo')
    assert rows(page, 'previous') == ['2 0020 2222 1 1']
    page.paste(field(1, 'serial'), '\n'.join(f'page;{n:X};{n:X};1;1' for n in range(41)))
    assert 'Refused by 34: the descriptions need over 80 octets' in page.text('#plan-none') and new_slots(page) == []


def test_the_address_has_all(page):
    open_five(page)
    page.fill(field(1, 'serial'), 'x"<&#')
    page.fill(field(2, 'total'), '1')
    page.click('#tab-schedule')
    page.run("""const begin = document.querySelector('#schedule-begin');
        begin.value = '4';
        begin.dispatchEvent(new Event('input', { bubbles: true }));""")
    page.wait(lambda: 'begin=4' in page.address() and 'part=schedule' in page.address(), 'the address')
    address, was = page.address(), rows(page)
    page.open(address)
    page.wait(lambda: page.find('#schedule').is_displayed(), 'the tab')
    assert page.value('#schedule-begin') == '4'
    page.click('#tab-plan')
    assert rows(page) == was and was[:2] == ['2 x"<&# 1111 1 1', '1    1'] and rows(page, 'previous') == ['2 0020 2222 1 1']
    assert 'Refused by 37' in page.text('#plan-current-wrong-2') and not unsaved(page)
    page.fill(field(1, 'serial'), '0010')
    assert unsaved(page)
    page.run('location.hash = "part=plan"')
    page.wait(lambda: rows(page) == [], 'another address')
    page.click('#plan-undo')
    assert rows(page)[0] == '2 0010 1111 1 1'


def test_damaged_addresses(page):
    for address, words in [
            ('#part=nothing', ''), ('#current=!!', 'left out: current'),
            ('#current=QQ', 'Refused by 32: the plan in the address'),
            ('#current=' + 'A' * 4000, 'Refused by 30: the plan in the address'),
            ('#begin=x&rows=' + urllib.parse.quote('[["a",1]]'), ''),
            ('#rows=' + urllib.parse.quote('[["current",0,{"kind":2}]]') + '&current=Q0JQAAEB_wAAAAAA', ''), ('#%', '')]:
        page.open(address)
        page.wait(lambda: words in page.text('#status'), (address, words))
        assert page.find('#plan').is_displayed()
        page.click('#plan-sample')
        assert rows(page) == FIVE_ROWS, address
    page.open('#current=Q0JQAAEBCQAAAAAA')
    page.wait(lambda: page.text(field(1, 'kind') + ' option:checked') == 'kind 9', 'an entry of kind 9')
    assert 'Refused by 36' in page.text('#plan-current-wrong-1')


def test_typing_answers_within_a_frame(page):
    lines = '\n'.join(f'page;{n % 32:X};{n % 32:X};1;1' for n in range(48))
    page.paste(field(1, 'serial'), lines)
    page.paste(field(1, 'serial', 'previous'), lines)
    took = page.run("""
        const input = document.querySelector(arguments[0]);
        return Array.from({ length: 60 }, (_, i) => {
            input.value = i % 7 === 0 ? 'x' : i.toString(16);
            const from = performance.now();
            input.dispatchEvent(new InputEvent('input', { bubbles: true }));
            document.querySelector('#plan-current-rows').getBoundingClientRect();
            return performance.now() - from;
        })""", field(24, 'serial'))
    assert sorted(took)[len(took) // 2] < 8, f'a key takes {sorted(took)[len(took) // 2]:.1f} ms'


def test_one_part_that_fails_leaves_the_others(page):
    with open(os.path.join(TOP, 'target/desk.html'), encoding='utf-8') as file:
        text = file.read()
    broken = page.path('desk.html', text.replace('id="schedule-begin"', 'id="schedule-other"').encode())
    page.driver.get('about:blank')
    page.driver.get('file://' + broken)
    page.click('#tab-schedule')
    page.wait(lambda: 'The part Schedule could not start' in page.text('#schedule'), 'the sentence')
    page.click('#tab-plan')
    page.click('#plan-sample')
    assert rows(page) == FIVE_ROWS
    page.wrongs()  # the error is meant, and so is the other page


def test_widths_colours_and_paper(page):
    page.click('#plan-sample')
    page.fill(field(1, 'serial'), 'xyz')
    page.fits('plan')
    page.media('print')
    if page.browser == 'chromium':
        assert page.text('h1') == 'Csobvarit desk: Plan' and not page.find('#tabs').is_displayed()
        assert not page.find('#plan-current-save').is_displayed() and page.find(field(5, 'kind')).is_displayed()
    page.media('')
    page.pdf('plan')
