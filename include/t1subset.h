/* libt1subset: Adobe Type 1 fonts (PFA, PFB or with a raw binary cipher), cut, merged, checked, listed and drawn, also those
 * that stand in PostScript documents.
 *
 * Every call takes whole files as bytes and answers a whole file or text as bytes: the same bytes that the program
 * t1subset writes for the same input. It returns T1SUBSET_OK and the result in answer->bytes, or the number of a
 * refusal and its text there ("no glyph Q", without a line feed), with what the refusal names in answer->detail and
 * answer->input. Any bytes are right as input: a call requires nothing of them, and it always returns.
 *
 * What the caller owes: pointers that point to as many bytes (or fonts, names, documents, answers) as is said, which stay
 * as they are during the call and don't overlap the answer; a pointer may be NULL where its size or count is 0. The answer may hold
 * anything before a call, since a call only writes it: free an earlier result first. Free every answer by
 * t1subset_free, whatever the call returned.
 *
 * Threads: nothing is kept from call to call, and the one state is the heap that a thread has chosen (t1subset_use), which
 * is that thread's alone. So any number of threads may call at once, each with an answer of its own.
 *
 * Memory and time: if the heap refuses a growth, the call returns T1SUBSET_MEMORY, and nothing is held. The calls that
 * were measured took at most eight times their files and 2 MB, and t1subset_pool with T1SUBSET_DSC 24 bytes more for each
 * line of its longest document. A font of 1 MB can be made so that a call that runs its
 * glyphs takes minutes. subset_within, merge_within, rejoin_within and diff_within bound what is run, without a clock;
 * list_full, pool, level and fonts have no such limit: a service that opens files of strangers should limit the
 * time of these from outside, for instance in a process of its own.
 *
 * On x86-64 the library needs a processor of the level x86-64-v2 (nearly all since 2009), and doesn't look for it.
 *
 * Versions: a number, a name or a field of this header keeps its meaning as long as the library is libt1subset.so.0;
 * later versions may add calls and numbers. */
#ifndef T1SUBSET_H
#define T1SUBSET_H
#include <stddef.h>
#include <stdint.h>
#ifdef __cplusplus
extern "C" {
#endif

/* 0x00MMmmpp: 0.1.0. That of this header; t1subset_version() answers that of the library that is linked. */
#define T1SUBSET_VERSION 0x000100u

/* Bytes that somebody else owns; no NUL stands at their end. A file, or the name of a glyph without its slash. */
typedef struct t1subset_bytes {
    const uint8_t *data;
    size_t size;
} t1subset_bytes;

/* What a call answers. */
typedef struct t1subset_answer {
    uint64_t detail;        /* what the refusal names: see each number below; else 0 */
    int64_t input;          /* the place, from 0, of the file that is refused for itself (it is too long, or spells no
                               font or listing); -1 if none is, as for T1SUBSET_NO_GLYPH or a conflict of two fonts */
    t1subset_bytes bytes;   /* the result, or the text of the refusal; empty for T1SUBSET_MEMORY and T1SUBSET_BAD_CALL */
} t1subset_answer;

/* An answer that holds nothing: t1subset_answer answer = T1SUBSET_ANSWER; */
#define T1SUBSET_ANSWER { 0, -1, { (const uint8_t *) "", 0 } }

/* What the calls whose names end in _within may do at most. Their pointer to it is not NULL. */
typedef struct t1subset_limits {
    uint64_t tokens;        /* how many tokens may be executed in all: numbers and commands of charstrings, each as often as
                               it is executed, in Subrs too */
} t1subset_limits;

/* No limit: t1subset_limits limits = T1SUBSET_LIMITS; */
#define T1SUBSET_LIMITS { UINT64_MAX }

/* The form of the file that is written. */
enum t1subset_form {
    T1SUBSET_PFA = 0,       /* text, with the cipher in hexadecimal: what a PostScript document contains */
    T1SUBSET_PFB = 1        /* segments, with the cipher in binary */
};

/* How documents are pooled: 0, or the sum of some of these. */
enum t1subset_pooling {
    T1SUBSET_TAGS = 1,      /* names that are equal without the tags that they begin with have one font */
    T1SUBSET_DSC = 2        /* the documents become one document with all their pages */
};

/* What a call returns. Several things may be wrong with the input: the first is told, files in their order before names
 * and conflicts. Behind each number stands its text; N is also answer->detail. */
enum t1subset_number {
    T1SUBSET_OK = 0,                    /* the result is in answer->bytes */
    T1SUBSET_MEMORY = 1,                /* a growth was refused, and nothing is held (no text) */
    T1SUBSET_BAD_CALL = 2,              /* the form is neither T1SUBSET_PFA nor T1SUBSET_PFB, or no such pooling (no text) */
    T1SUBSET_FILE_TOO_LONG = 3,         /* "file too long": it has more than 268,435,456 bytes */
    T1SUBSET_NO_GLYPH = 4,              /* "no glyph NAME": the first name that the font lacks */
    T1SUBSET_NO_CODE = 5,               /* "no code N": the first code for which the Encoding has no name; told before names */
    T1SUBSET_NO_FONT = 6,               /* "no font NAME": no document has a font of this name */
    T1SUBSET_TOO_MANY_TOKENS = 7,       /* "too many tokens": more than the limits allow; told after names, mostly before conflicts */
    T1SUBSET_NO_DOCUMENT = 8,           /* "no document: WHAT": a file carries no PostScript document; answer->input is its place */

    /* A file spells no font. answer->input is its place. Offsets count from 0: in the file for a segment, in the clear
     * text for the Encoding, else in the decrypted private text. */
    T1SUBSET_BAD_SEGMENT = 10,          /* "bad segment at N" */
    T1SUBSET_NO_EEXEC = 11,             /* "no eexec": no Type 1 font program, perhaps TrueType or CFF */
    T1SUBSET_SHORT_CIPHER = 12,         /* "cipher too short" */
    T1SUBSET_NO_ENCODING = 13,          /* "no Encoding" */
    T1SUBSET_BAD_ENCODING = 14,         /* "bad Encoding at N": the table doesn't parse from this offset on */
    T1SUBSET_NO_CHARSTRINGS = 15,       /* "no CharStrings" */
    T1SUBSET_BAD_LENIV = 16,            /* "bad lenIV" */
    T1SUBSET_BAD_SUBRS = 17,            /* "bad Subrs at N" */
    T1SUBSET_BAD_CHARSTRINGS = 18,      /* "bad CharStrings at N" */
    T1SUBSET_HYBRID = 19,               /* "hybrid font": it has two tables of Subrs */
    T1SUBSET_NO_CLOSEFILE = 20,         /* "no closefile" */
    T1SUBSET_NO_NOTDEF = 21,            /* "no .notdef" */
    T1SUBSET_FONT_LIMIT = 22,           /* "over a limit": 65,535 glyphs or Subrs, or a weight of 67,108,864 */

    /* Fonts don't merge: the lowest conflict. */
    T1SUBSET_SHELLS_DIFFER = 30,        /* "shells differ in PART": N is a part, see below */
    T1SUBSET_CODE_DIFFERS = 31,         /* "code N differs": the Encodings have different names for it */
    T1SUBSET_GLYPH_DIFFERS = 32,        /* "glyph NAME differs" */
    T1SUBSET_GLYPH_LACKS_PART = 33,     /* "glyph NAME lacks part NAME": a component of an accented glyph */
    T1SUBSET_SUBR_DIFFERS = 34,         /* "subr N differs", perhaps with ", used by NAME" */
    T1SUBSET_MERGE_LIMIT = 35,          /* "over a limit": the merged font would be too large */
    T1SUBSET_NOTHING_TO_MERGE = 36,     /* "nothing to merge": the list of fonts is empty */
    T1SUBSET_GLYPH_LACKS_SUBR = 37,     /* "glyph NAME lacks subr N": of fonts to rejoin; told before conflicts */

    /* A text is no listing. answer->input is its place; lines count from 1. */
    T1SUBSET_BAD_LINE = 40,             /* "bad line N" */
    T1SUBSET_REPEATED_LINE = 41,        /* "repeated in line N": an earlier line has its key */
    /* Two listings don't join. */
    T1SUBSET_LISTED_SUBR_DIFFERS = 42,  /* "subr N differs" */
    T1SUBSET_LISTED_GLYPH_DIFFERS = 43  /* "glyph NAME differs" */
};

/* The part of a font that differs, for T1SUBSET_SHELLS_DIFFER: everything outside the tables has to be the same. */
enum t1subset_part {
    T1SUBSET_PART_HEAD = 0,             /* the clear text before the Encoding */
    T1SUBSET_PART_ENCODING = 1,         /* the Encoding: a word and a table, or two words */
    T1SUBSET_PART_CLEAR_TAIL = 2,       /* the clear text behind the Encoding */
    T1SUBSET_PART_PRIVATE = 3,          /* the private text before Subrs, and lenIV */
    T1SUBSET_PART_SUBRS_TABLE = 4,      /* how many Subrs are declared, and which are there */
    T1SUBSET_PART_SUBRS_WORDS = 5,      /* the words around each Subr */
    T1SUBSET_PART_MIDDLE = 6,           /* the private text between Subrs and CharStrings */
    T1SUBSET_PART_GLYPHS_WORDS = 7,     /* the words around each glyph */
    T1SUBSET_PART_TAIL = 8              /* the private text behind CharStrings */
};

/* One line that says what a font has: "ok 855 glyphs, 5 subrs, weight 347630\n". */
uint32_t t1subset_check(const uint8_t *font, size_t size, t1subset_answer *answer);

/* Lines that list a font: "encoding WORD" or "code N NAME" for each code, "subr N LENGTH" for each Subr, "glyph NAME
 * LENGTH" for each glyph. */
uint32_t t1subset_list(const uint8_t *font, size_t size, t1subset_answer *answer);

/* The same lines, and behind them what the font's dictionary says, as it is spelled there: "name NAME" (FontName),
 * "matrix NUMBERS" (FontMatrix), "box NUMBERS" (FontBBox) and "unique NUMBER" (UniqueID), none of a key that has no value;
 * and last "width NAME X Y" for each glyph, in font units, or "width NAME fault FAULT" if it can't be drawn. */
uint32_t t1subset_list_full(const uint8_t *font, size_t size, t1subset_answer *answer);

/* Lines that say what a glyph draws, in font units: "width X Y", "bearing X Y", and for each part "part X Y" and its
 * marks, such as "move X Y", "line X Y", "curve X Y X Y X Y", "close", "hstem Y DY"; or "fault NAME" if it can't be drawn. */
uint32_t t1subset_show(const uint8_t *font, size_t size, const uint8_t *name, size_t name_size, t1subset_answer *answer);

/* The one canonical file of a font, in a form. */
uint32_t t1subset_convert(const uint8_t *font, size_t size, uint32_t form, t1subset_answer *answer);

/* The canonical file, in a form, of a font that another program spells: with comments in the Encoding or among the Subrs,
 * with codes that are copied, or with readonly behind a word Encoding; and without the test of FontDirectory that it may
 * begin with. */
uint32_t t1subset_mend(const uint8_t *font, size_t size, uint32_t form, t1subset_answer *answer);

/* Lines that say what t1subset_mend mends of a font, in this order: "comment in Encoding at N", "code copied at N",
 * "readonly Encoding at N", "comment in Subrs at N", "test of FontDirectory taken out at N"; none if there is nothing to
 * mend. N is an offset from 0, for Subrs in the decrypted private text, else in the clear text. */
uint32_t t1subset_mends(const uint8_t *font, size_t size, t1subset_answer *answer);

/* The canonical file of the subset that keeps these glyphs, .notdef, the components of accented glyphs, and the Subrs
 * that all of these execute. A name may stand in the list more than once. */
uint32_t t1subset_subset(const uint8_t *font, size_t size, const t1subset_bytes *names, size_t count, uint32_t form, t1subset_answer *answer);

/* The same, and the glyphs are kept, too, whose names these codes have in the font's Encoding; each byte is a code, and a code
 * may be there more than once. If the Encoding is the word StandardEncoding, the names are those of StandardEncoding; by any
 * other word no code has a name. */
uint32_t t1subset_subset_codes(const uint8_t *font, size_t size, const t1subset_bytes *names, size_t count,
                               const uint8_t *codes, size_t codes_size, uint32_t form, t1subset_answer *answer);

/* The canonical file of the font that fonts merge to. Subsets of one font that t1subset cut merge, in every order, to the
 * subset of all their names, byte for byte. */
uint32_t t1subset_merge(const t1subset_bytes *fonts, size_t count, uint32_t form, t1subset_answer *answer);

/* The same for subsets that another program cut, such as dvips or pdfTeX: they are first mended, as t1subset_mend does, and
 * normalized (white space is squeezed, lines of UniqueID and XUID and the tag before the FontName are removed, and every table of
 * Subrs declares as many). */
uint32_t t1subset_rejoin(const t1subset_bytes *fonts, size_t count, uint32_t form, t1subset_answer *answer);

/* t1subset_subset_codes within limits: what it answers, or T1SUBSET_TOO_MANY_TOKENS. This comes if the runs of all glyphs that are
 * kept execute more tokens in all: one of each, and of a glyph that asks for other hints two, where they are replaced and kept. */
uint32_t t1subset_subset_within(const uint8_t *font, size_t size, const t1subset_bytes *names, size_t count,
                                const uint8_t *codes, size_t codes_size, uint32_t form, const t1subset_limits *limits,
                                t1subset_answer *answer);

/* t1subset_merge within limits, likewise of all glyphs of all fonts. If the shells of the first two fonts differ, that is told, and
 * no glyph is run; any other conflict is told only where the tokens are not too many. */
uint32_t t1subset_merge_within(const t1subset_bytes *fonts, size_t count, uint32_t form, const t1subset_limits *limits,
                               t1subset_answer *answer);

/* t1subset_rejoin within limits, likewise of all glyphs of all fonts, up to and with the first font that lacks a Subr. */
uint32_t t1subset_rejoin_within(const t1subset_bytes *fonts, size_t count, uint32_t form, const t1subset_limits *limits,
                                t1subset_answer *answer);

/* Lines that tell all conflicts of two fonts, each with the text of the refusal of t1subset_merge, the lowest first; none exactly if
 * the fonts merge. */
uint32_t t1subset_diff(const uint8_t *first, size_t first_size, const uint8_t *second, size_t second_size, t1subset_answer *answer);

/* t1subset_diff within limits: what it answers, or T1SUBSET_TOO_MANY_TOKENS, likewise of all glyphs of both fonts. These are run
 * first, so that this refusal comes before all conflicts. */
uint32_t t1subset_diff_within(const uint8_t *first, size_t first_size, const uint8_t *second, size_t second_size,
                              const t1subset_limits *limits, t1subset_answer *answer);

/* The join of two listings, texts of lines "S INDEX HEX" and "G NAME HEX". */
uint32_t t1subset_join(const uint8_t *first, size_t first_size, const uint8_t *second, size_t second_size, t1subset_answer *answer);

/* PostScript documents, one behind the other, with each font once. Where a font may stand says t1subset(1), under pool. Fonts
 * of one name that are the same or rejoin become one font, which keeps the name: if the name has several places, it stands
 * before the first document, as "/pool:NAME", and each place has the line "/NAME /pool:NAME findfont definefont pop" in its
 * stead. The fonts of any other name stay: t1subset_fonts says why fonts don't rejoin. Every other byte stays, and an LF stands
 * between two documents where no line ends there.
 * With T1SUBSET_TAGS in pooling names that are equal without the tags that they begin with, six capitals and "+", have one font,
 * too, if their fonts rejoin; its name before the first document has no tags.
 * With T1SUBSET_DSC the documents become one document after Adobe's Document Structuring Conventions: one header with the number of
 * pages, one setup with the fonts, all pages under new numbers, each behind the prolog and the setup of its own document and
 * between save and restore, and one trailer. A document without %%Page comments is one page.
 * The only refusals are T1SUBSET_MEMORY, T1SUBSET_BAD_CALL, T1SUBSET_NO_DOCUMENT and T1SUBSET_FILE_TOO_LONG, of a document, or of
 * what they become (input -1). */
uint32_t t1subset_pool(const t1subset_bytes *documents, size_t count, uint32_t pooling, t1subset_answer *answer);

/* Documents in which each place of a name has the joined font, so that any of them may be printed without the others.
 * answers points to count answers, one for each document, in their order; free each of them. If the call is refused, for
 * memory or since a document is too long, the first has the refusal and the others hold nothing. If count is 0, nothing is
 * written. */
uint32_t t1subset_level(const t1subset_bytes *documents, size_t count, t1subset_answer *answers);

/* A line for each place of a font in documents, "DOCUMENT: OFFSET NAME GLYPHS DEPTH joined", or behind DEPTH "kept: " and why
 * the fonts of the name don't rejoin; and a last line "N places, N names, N kept". DOCUMENT is the place of the document, and
 * OFFSET that of the font in it, both from 0; DEPTH is how many embedded documents are open there. */
uint32_t t1subset_fonts(const t1subset_bytes *documents, size_t count, t1subset_answer *answer);

/* The canonical PFA of the first font of this name in documents, mended as by t1subset_mend. A document that is too long is
 * told before T1SUBSET_NO_FONT. */
uint32_t t1subset_extract(const uint8_t *name, size_t name_size, const t1subset_bytes *documents, size_t count, t1subset_answer *answer);

/* Frees what an answer holds, and leaves it as T1SUBSET_ANSWER; an answer that holds nothing may be freed again. The pointer
 * is not NULL. */
void t1subset_free(t1subset_answer *answer);

/* The version of the library, as T1SUBSET_VERSION. */
uint32_t t1subset_version(void);

/* A heap: resize(user, NULL, n) answers a new block of n bytes, resize(user, block, n) a block of n bytes with what the
 * old one had, and resize(user, block, 0) frees it and answers anything. NULL refuses a growth, and the old block stays.
 * A block is aligned as by malloc. It has to return: neither longjmp nor a C++ exception may leave it. */
typedef struct t1subset_heap {
    void *(*resize)(void *user, void *block, size_t size);
    void *user;
} t1subset_heap;

/* The heap of the calls of this thread from now on; NULL is malloc, realloc and free. It has to stay while it is in use,
 * and an answer has to be freed under the heap under which it was made. */
void t1subset_use(const t1subset_heap *heap);

#ifdef __cplusplus
}
#endif
#endif
