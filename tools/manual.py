#!/usr/bin/env python3
"""manual.py PROGRAM: writes the commands of docs/cobra_poly.1, from `.SH COMMANDS` to the next `.SH`, from what PROGRAM says to `--help`.

All else of the page stays as it is. tests/scripts.py looks whether the page is the one that this makes."""
import os, re, subprocess, sys, textwrap

PAGE = os.path.join(os.path.dirname(os.path.dirname(os.path.abspath(__file__))), 'docs', 'cobra_poly.1')


def help_of(program, *words):
    return subprocess.run([program, *words, '--help'], stdout=subprocess.PIPE, check=True, timeout=600).stdout.decode()


def plain(text):
    """A text of roff, in lines that can be read."""
    return '\n'.join(textwrap.wrap(text.replace('-', '\\-'), 140, break_on_hyphens=False, break_long_words=False))


def tagged(tag, text):
    return '.TP\n%s\n%s\n' % (tag, plain(text))


def option(words, text):
    """An option, or an answer, with what is said of it."""
    name, _, value = words.replace('-h, ', '').partition(' ')
    value = value.strip('<>')
    return tagged('.BI %s " %s"' % (name.replace('-', '\\-'), value) if value else '.B ' + name.replace('-', '\\-'), text)


def command(name, about, text):
    """The section of a command. Its help is: what it does, usage, arguments, options, answers, and what else there is to say."""
    text = re.sub(r'\n {5,}(?=[^ -])', ' ', text)
    usage = re.search(r'^Usage: \S+ (.*)', text, re.M)
    made = '.SS %s\n%s.\n' % ('cobra_poly ' + (usage[1] if usage else name + ' [COMMAND]').replace('-', '\\-'), plain(about))
    for part in text.split('\n\n')[2:]:
        head, *lines = part.rstrip('\n').split('\n')
        pairs = [re.split('  +', line.strip(), maxsplit=1) for line in lines]
        if head.startswith('Answers'):
            made += '.PP\n%s\n' % head + ''.join(option(*pair) for pair in pairs)
        elif head == 'Options:':
            made += ''.join(option(*pair) for pair in pairs if '--help' not in pair[0])
        elif head != 'Arguments:':
            made += '.PP\n%s\n' % plain(' '.join(part.split()))
    return made


def commands(program):
    """The sections of all commands, in the order in which the program tells them."""
    top = help_of(program)
    for name, about in re.findall(r'^  ([a-z]+)  +(.*)$', top.partition('Commands:')[2].partition('Options:')[0], re.M):
        yield command(name, about, help_of(program, name) if name != 'help' else '')


def page_of(page, program):
    """The page as it has to be for this program."""
    head, _, rest = page.partition('.SH COMMANDS\n')
    return head + '.SH COMMANDS\n' + ''.join(commands(program)) + rest[rest.index('.SH '):]


def main():
    if len(sys.argv) != 2 or sys.argv[1].startswith('-'):
        print(__doc__)
        return 0 if '--help' in sys.argv else 2
    with open(PAGE, encoding='utf-8') as file:
        page = file.read()
    with open(PAGE, 'w', encoding='utf-8') as file:
        file.write(page_of(page, os.path.abspath(sys.argv[1])))
    return 0


if __name__ == '__main__':
    sys.exit(main())
