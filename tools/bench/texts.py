"""The texts of the benchmark. Each is made from word lists and a seed, and is the same each time.

The words are those of words.txt, and of Debian's packages wamerican and wfrench; prose is that of pidgin-data and
installation-guide-amd64; source code is that of Python's library."""

import functools
import glob
import html.parser
import os
import random
import struct
import sysconfig
import unicodedata

WORDS = os.path.join(os.path.dirname(os.path.abspath(__file__)), "words.txt")
AMERICAN, FRENCH = "/usr/share/dict/american-english", "/usr/share/dict/french"
MESSAGES = "/usr/share/locale/{}/LC_MESSAGES/pidgin.mo"
GUIDE = "/usr/share/doc/installation-guide-amd64/{}/*.html"
LINE_LENGTH = 72
SHORTEST_SENTENCE = 20  # in code points
OTHER_THAN_WORDS = set("%_/<>&$\\\0")

VIETNAMESE_STARTS = "b c ch d đ g gh h kh l m n ng ngh nh p ph qu r s t th tr v x".split()
VIETNAMESE_VOWELS = "a ă â e ê i o ô ơ u ư y ai ao au âu ay ây eo êu ia iê iêu oa oai oe oi ôi ơi ua uâ uê ui uô uôi ươ ươi yê".split()
VIETNAMESE_ENDS = ["", "", "c", "ch", "m", "n", "ng", "nh", "p", "t"]
VIETNAMESE_TONES = ["", "\u0300", "\u0301", "\u0303", "\u0309", "\u0323"]
GREEK_STARTS = "β γ δ ζ θ κ λ μ ν ξ π ρ σ τ φ χ ψ στ πρ τρ κλ".split()
GREEK_VOWELS = "α ε η ι ο υ ω ου αι ει οι".split()


def composed(text):
    return unicodedata.normalize("NFC", text)


def decomposed(text):
    return unicodedata.normalize("NFD", text)


# ---- words


@functools.cache
def listed_words():
    """The lists of words.txt by their names."""
    lists, name = {}, None
    with open(WORDS, encoding="utf-8") as file:
        for line in file:
            if line.endswith(":\n"):
                name = line[:-2]
                lists[name] = []
            elif name:
                lists[name] += line.split()
    return lists


def dictionary(path, choice, is_wanted):
    """The words of a dictionary in random order, without those that the patterns would find."""
    with open(path, encoding="utf-8") as file:
        words = {line.strip() for line in file}
    plain = {word: "".join(c for c in decomposed(word.lower()) if not unicodedata.combining(c)) for word in words}
    words = sorted(word for word in words if word and is_wanted(word) and "resum" not in plain[word])
    choice.shuffle(words)
    return words


def skewed(choice, words, power=3):
    """A word, those in front more often."""
    return words[int(len(words) * choice.random() ** power)]


def capital(choice, word):
    return word[0].upper() + word[1:] if choice.random() < 0.08 else word


def vietnamese_word(choice):
    vowels = choice.choice(VIETNAMESE_VOWELS)
    place = max((n for n, c in enumerate(vowels) if c in "ăâêôơư"), default=0)
    toned = vowels[: place + 1] + choice.choice(VIETNAMESE_TONES) + vowels[place + 1 :]
    return choice.choice(VIETNAMESE_STARTS) + toned + choice.choice(VIETNAMESE_ENDS)


def greek_word(choice):
    syllables = choice.randint(1, 4)
    accented, word = choice.randrange(syllables), ""
    if choice.random() < 0.2:
        word = choice.choice("αεηιουω") + choice.choice("\u0313\u0314")
    for place in range(syllables):
        word += choice.choice(GREEK_STARTS) + choice.choice(GREEK_VOWELS)
        if place == accented:
            word += "\u0301" if choice.random() < 0.85 else "\u0342"
    return word + choice.choice(["", "ς", "ν"])


# ---- sentences


def messages(language):
    """The translated messages of Pidgin, without those that have a sign which stands for other words or a key."""
    with open(MESSAGES.format(language), "rb") as file:
        data = file.read()
    _, _, count, _, table = struct.unpack_from("<5I", data)
    for number in range(count):
        length, start = struct.unpack_from("<2I", data, table + 8 * number)
        message = data[start : start + length].decode()
        if not set(message) & OTHER_THAN_WORDS:
            yield message


class Paragraphs(html.parser.HTMLParser):
    """The text of each paragraph of a page."""

    def __init__(self, page):
        super().__init__()
        self.is_within, self.all = False, []
        self.feed(page)

    def handle_starttag(self, tag, _attributes):
        if tag == "p":
            self.all.append("")
            self.is_within = True

    def handle_endtag(self, tag):
        self.is_within &= tag != "p"

    def handle_data(self, data):
        if self.is_within:
            self.all[-1] += data


def guide(language):
    """The paragraphs of Debian's installation guide."""
    for path in glob.glob(GUIDE.format(language)):
        with open(path, encoding="utf-8") as file:
            yield from Paragraphs(file.read()).all


def sentences_of(parts):
    """Those that are long enough and not in English, each once, in one order."""
    sentences = {" ".join(part.split()) for part in parts}
    return sorted(sentence for sentence in sentences if len(sentence) >= SHORTEST_SENTENCE and not sentence.isascii())


# ---- makers of words: each is made with a choice, and then gives a word at each call


def english_words(choice):
    common = listed_words()["english"]
    others = dictionary(AMERICAN, choice, lambda word: word.isascii() and word.isalpha())
    return lambda: capital(choice, choice.choice(common) if choice.random() < 0.5 else skewed(choice, others))


def mixed_words(choice):
    """French, Vietnamese and Greek, each word composed or decomposed."""
    french = dictionary(FRENCH, choice, lambda word: all(c.isalpha() or c in "'-" for c in word))

    def word():
        kind = choice.random()
        if kind < 0.45:
            made = skewed(choice, french)
        else:
            made = vietnamese_word(choice) if kind < 0.75 else greek_word(choice)
        return (decomposed if choice.random() < 0.5 else composed)(capital(choice, made))

    return word


def east_asian_words(choice):
    """Han, Hangul, one word in ten of it decomposed, and kana."""
    han = [chr(c) for c in range(0x4E00, 0x9FA6)]
    hangul = [chr(c) for c in range(0xAC00, 0xD7A4) if not 0xAC80 <= c < 0xAC9C]
    kana = [chr(c) for c in [*range(0x3042, 0x3094), *range(0x30A2, 0x30F5)]]
    choice.shuffle(han)
    choice.shuffle(hangul)

    def word():
        kind, length = choice.random(), choice.randint(1, 5)
        if kind < 0.5:
            return "".join(skewed(choice, han) for _ in range(length))
        if kind < 0.9:
            made = "".join(skewed(choice, hangul) for _ in range(length))
            return decomposed(made) if choice.random() < 0.1 else made
        return "".join(choice.choice(kana) for _ in range(length))

    return word


# ---- texts


def text_of(choice, word, separators, size, planted=()):
    """Words in lines until there are `size` bytes; those of `planted` come in turn, one in some 10,000."""
    parts, length, column, number, next_plant = [], 0, 0, 0, 400
    while length < size:
        number += 1
        made = word()
        if planted and number == next_plant:
            made, planted = planted[0], planted[1:] + planted[:1]
            next_plant += choice.randint(2000, 18000)
        column += len(made) + 1
        made += choice.choice(separators)
        if column > LINE_LENGTH:
            made, column = made.rstrip() + "\n", 0
        parts.append(made)
        length += len(made.encode())
    return "".join(parts)


PLAIN, SENTENCES = [" "], [" "] * 20 + [", "] * 2 + [". "]
RESUME = [composed("résumé"), decomposed("résumé")]


def english(choice, size):
    return text_of(choice, english_words(choice), SENTENCES, size, RESUME)


def mixed(choice, size):
    return text_of(choice, mixed_words(choice), SENTENCES, size, RESUME)


def east_asian(choice, size):
    separators = ["。"] * 3 + ["、"] * 3 + [" "] * 19 + [""] * 25
    return text_of(choice, east_asian_words(choice), separators, size, [composed("검색"), decomposed("검색")])


def source_code(_choice, size):
    """The files of Python's library, the shortest paths first."""
    files = glob.glob(os.path.join(sysconfig.get_paths()["stdlib"], "**", "*.py"), recursive=True)
    parts, length = [], 0
    for path in sorted(files, key=lambda path: (path.count("/"), path)):
        if length < size:
            with open(path, encoding="utf-8", errors="ignore") as file:
                parts.append(file.read())
            length += len(parts[-1])
    return "".join(parts)


def words_of(name, separators):
    """A text of the words of one list of words.txt, those in front more often."""

    def made(choice, size):
        words = listed_words()[name]
        return text_of(choice, lambda: skewed(choice, words, 2), separators, size)

    return made


def prose(source, language):
    """A text of all sentences of a source in random order, then in another order, and so on."""

    def made(choice, size):
        sentences, parts, length = sentences_of(source(language)), [], 0
        if not sentences:
            raise FileNotFoundError(f"no sentences of {language}: README.md says which packages have them")
        while length < size:
            choice.shuffle(sentences)
            parts += sentences
            length += sum(len(sentence.encode()) + 1 for sentence in sentences)
        return "\n".join(parts)

    return made


def letters(_choice, size):
    return "a" * size


JOINED = ["", "", "", " "]
# A maker and the megabytes of each text.
TEXTS = {
    "english": (english, 8),
    "mixed": (mixed, 8),
    "composed": (lambda choice, size: composed(mixed(choice, size)), 8),
    "decomposed": (lambda choice, size: decomposed(mixed(choice, size)), 8),
    "east asian": (east_asian, 8),
    "russian": (words_of("russian", SENTENCES), 8),
    "thai": (words_of("thai", JOINED), 8),
    "letters": (letters, 8),
    "hindi": (words_of("hindi", PLAIN), 2),
    "arabic": (words_of("arabic", PLAIN), 2),
    "hebrew": (words_of("hebrew", PLAIN), 2),
    "tamil": (words_of("tamil", PLAIN), 2),
    "japanese": (words_of("japanese", JOINED), 2),
    "lao": (words_of("lao", PLAIN), 2),
    "burmese": (words_of("burmese", PLAIN), 2),
    "polish": (words_of("polish", PLAIN), 2),
    "telugu": (prose(messages, "te"), 2),
    "khmer": (prose(messages, "km"), 2),
    "bengali": (prose(messages, "bn"), 2),
    "korean": (prose(guide, "ko"), 2),
    "chinese": (prose(guide, "zh_CN"), 2),
    "emoji and quotes": (words_of("emoji and quotes", PLAIN), 2),
    "source code": (source_code, 2),
}


def front(data, size):
    """The whole characters of the first `size` bytes."""
    return data[:size].decode("utf-8", "ignore").encode()


def text(name, folder, megabytes=None):
    """The bytes of a text, or of its front; it is made if `folder` has none that is newer than this file and its words."""
    path = os.path.join(folder, name.replace(" ", "_") + ".txt")
    make, most = TEXTS[name]
    if not os.path.exists(path) or os.path.getmtime(path) < max(map(os.path.getmtime, (__file__, WORDS))):
        made = front(make(random.Random(name), most * 1_000_000).encode(), most * 1_000_000)
        with open(path + ".new", "wb") as file:
            file.write(made)
        os.rename(path + ".new", path)
    with open(path, "rb") as file:
        data = file.read()
    return front(data, int(megabytes * 1_000_000)) if megabytes else data
