# SPDX-License-Identifier: MIT
"""Whether what is under the pointer or has the focus in the page of acpi_dump --html is marked with its bytes, and the
other way round, in Chromium and with no error."""
from check.html_page import page_of
from lib import browsers
from lib.checks import check

# What is marked: the bytes of a table, and rows and folds by their ids or their offsets.
BYTES = "[...document.querySelectorAll('#{} .bs .on')].map(e => e.textContent.trim()).join(' ')"
ROWS = "[...document.querySelectorAll('.fs .on')].map(e => e.id || e.dataset.o).join(' ')"


def check_browser(program, folder):
    """The page of q35 in Chromium, if it is there."""
    path = browsers.found()
    if not path:
        print("skipped: the page in a browser, since chromium isn't there")
        return
    page_of(program, folder, "q35.image")
    browser = browsers.Browser(path, folder)
    try:
        browser.open(f"file://{folder}/page.html")
        check_marks(browser)
        check_ways(browser)
        check("what the browser says", not browser.errors, browser.errors[:2])
    except OSError as error:
        check("the page in a browser", False, error)
    finally:
        browser.end()


def check_value(name, browser, expression, wanted):
    found = browser.value(expression)
    check(name, found == wanted, found)


def check_marks(browser):
    """The MADT of q35 begins with its signature, at 0x24 is the address of the local APICs, at 0x2c the first
    processor."""
    browser.point("#APIC-0x24 th")
    check_value("pointing at a field", browser, BYTES.format("APIC"), "00 00 e0 fe ....")
    browser.point("#APIC .bs i.f24")
    check_value("pointing at a byte", browser, ROWS, "APIC-0x24")
    browser.value("document.querySelector('#APIC .hd').open = true; document.querySelector('#APIC-0x0 a').focus()")
    check_value("a field with the focus", browser, BYTES.format("APIC"), "41 50 49 43 APIC")
    browser.press("ArrowDown", 40)
    check_value("an arrow key", browser, ROWS, "APIC-0x4")
    browser.value("document.querySelector('summary[data-o=\"2c\"]', '#APIC').focus()")
    check_value("a structure with the focus", browser, ROWS, "2c")


def check_ways(browser):
    """Where links lead, and screens of several widths. The DSDT's \\_SB_.PCI0._HID is 10 bytes at 0x7d, in two lines of
    bytes and in three folds, which begin folded."""
    browser.value("location.hash = '#DSDT-0x7d'; go()")
    check_value("a link to an object", browser, BYTES.format("DSDT"), "08 5f 48 ._H 49 44 0c 41 d0 0a 08 ID.A...")
    height = browser.value("document.getElementById('DSDT-0x7d').getBoundingClientRect().height")
    check("an object that a link leads to", height > 0, "it is folded")
    for width, dark in [(1280, False), (390, False), (320, True)]:
        wide = browser.size(width, dark)
        check(f"{width} pixels wide", wide is not None and wide <= 0, f"{wide} too wide")
    browser.value("document.querySelector('#machine a[href=\"#APIC-0x58\"]').focus()")
    browser.press("Enter", 13, "\r")
    check_value("a box of the drawing", browser, "location.hash", "#APIC-0x58")
