"""The hashes by which a browser takes the style and the script of the page, as crates/status_page has them.
Usage: hashes.py [--write]"""
import base64, hashlib, os, re, sys

SOURCES = os.path.join(os.path.dirname(os.path.abspath(__file__)), '..', '..', 'crates', 'status_page', 'src')


def hash_of(text):
    return base64.b64encode(hashlib.sha256(text.encode()).digest()).decode()


def written(name):
    path = os.path.join(SOURCES, name)
    source = open(path, encoding='utf-8').read()
    text = re.search(r'r#"(.*)"#', source, re.S).group(1)
    return path, source, re.sub(r'(_HASH: \[u8; 44\] =\s*\*b)"[^"]*"', lambda m: f'{m.group(1)}"{hash_of(text)}"', source)


def main():
    for name in ('page_style.rt', 'page_script.rt'):
        path, source, right = written(name)
        if source != right and '--write' in sys.argv:
            open(path, 'w', encoding='utf-8').write(right)
        elif source != right:
            sys.exit(f'{name} has another hash: tests/page/hashes.py --write')


main()
