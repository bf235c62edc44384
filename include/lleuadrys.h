/* Lleuadrys for C and C++: the file layer of the board, both engines, as a static library for x86-64.

   BUILDING  `tools/library` proves it and writes target/staticlib/liblleuadrys.a. With that beside it a program is

                 gcc -O2 log.c liblleuadrys.a

             and nothing else: of others' functions it needs memcpy and memset, which every C library has.

   LENT      Every pointer is lent for the one call and no longer: nothing is kept between calls, nothing is allocated, no
             state lives in the library. The caller owns the image, the session's bytes and every buffer, before and after. A
             pointer with a length stands for that many bytes; two parts that are lent to one call, of which one is written,
             must not overlap. A length may be 0; its pointer must still not be null. A request that needs no bytes is made
             with lleuadrys_order, which takes no pointer for them.
   CALLERS   Calls on different images and sessions may run at once. Of one image or one session there is one caller at a
             time: while a call that may change it runs, no other call may be lent the same bytes.
   STACK     At most 1,032 bytes in the beginning of a pass listing, 952 in a line of it, 936 in a request, 488 in an adding,
             360 in a deleting, 328 in a look, 312 in a listing, 200 in a mounting and 88 in any other call, whatever is
             lent: measured (docs/BENCHMARKS.md). What calls itself does so at most once for each byte of a sector.
   IMAGE     360 times N bytes, N from 1 to 4,096: sector 0 is the directory.
   SESSION   LLEUADRYS_SESSION bytes for the engine that moves every byte straight in the image, or
             LLEUADRYS_BUFFERED_SESSION for the one with a blocking buffer of 360 bytes for each open file, which writes
             a sector when it is full: the number of the bytes lent says which engine serves. In any place, with no
             alignment. A mounting writes them, a request changes them; docs/SESSIONS.md has their form. They may be copied,
             stored in a file, and lent again later, to the same image as it was left, and to any library whose version has
             the same first number. Bytes that are no session are answered like a session that is not legal: 12. Bytes that
             are all zero are a session with no used entry.
   ENTRY     the number of a file in the directory, 0 to 17; any other is answered 8. lleuadrys_find gives it by name.
   GRANULE   the number of a granule of a random file, from 0 on, in 32 bits. Granules of up to 180 bytes share sectors: as
             many lie in each, one behind another from its byte 0 on, as fit in it whole, so that a file of n sectors with
             granules of 60 bytes has 6 n of them, 0 to 6 n - 1. A longer granule begins a sector, and takes whole ones. A
             write changes the granule's own bytes, and of a longer one all of its sectors: what is given, and zeros behind
             it. Until version 3 a granule of any length began a sector; an image written then is read as is said here.
   CLOSING   A close (code 9) puts the file's buffer back in the image and writes its count and flags to its entry in the
             directory, where the old ones stand until then; lleuadrys_field has those of an open file. An image that is saved
             while a file is open has the old count beside records that are new already, or, with buffers, are still in the
             session alone; mounted afresh it may be a bad image. There is no call that writes back what is held and leaves
             the file open: document 01 has none. Close the file and open it again; record forward, as often as
             lleuadrys_position told, leads back to where it stood.

   A request that is refused (3 to 12), or an adding or deleting that is (8, 9, 11 to 17), changes nothing that was lent.
   Every call answers on every input: whatever stands in the image, the session and the buffers. The contracts are in
   crates/lleuadrys_c/src/lib.rt.

   REQUESTS, by code                       takes              gives
      1  opening
      2  read                                                 the record, in the first bytes of buffer
      3  write                             given
      4  granule read                      granule            the granule, in the first bytes of buffer
      5  granule write                     granule, given
      6  granule look: the number that lleuadrys_look's refusal has
      7  write file mark
      8  rewind on-line: to the first record
      9  rewind off-line: closes the file, writes count and flags to the directory
     10  record forward
     11  record back
     12  file forward: beyond the mark
     13  file back: before the mark
   Any other code gets 12 or 8 where those are due, and else 7: also 14 and 15, by which a script adds and deletes files.
   For that there are lleuadrys_add and lleuadrys_delete. */
#ifndef LLEUADRYS_H
#define LLEUADRYS_H

#include <stddef.h>
#include <stdint.h>

#ifdef __cplusplus
extern "C" {
#endif

/* 10,000 times the first number, 100 times the second, and the third: this is 3.1.0. */
#define LLEUADRYS_VERSION 30100

/* What a request, a mounting, an adding and a deleting answer. */
enum lleuadrys_answer {
    LLEUADRYS_DONE = 0,
    LLEUADRYS_END_OF_FILE = 1,       /* met: the position crossed the mark */
    LLEUADRYS_BEGINNING_OF_TAPE = 2, /* met: the position is 0 */
    LLEUADRYS_NO_ROOM = 3,           /* the extent is full, 65,535 records stand before, or no granule has that number */
    LLEUADRYS_PROTECTED = 4,         /* write or mark on a protected file */
    LLEUADRYS_ODD_COUNT = 5,         /* odd byte count in a write */
    LLEUADRYS_BAD_SIZE = 6,          /* write of 0 bytes or more than the record length, or a code over 360; a read's
                                        buffer under the record length */
    LLEUADRYS_WRONG_SEQUENCE = 7,    /* wrong kind of file for the request, or out of sequence; or a code of no request */
    LLEUADRYS_NOT_THERE = 8,         /* no such entry, or its file is not open */
    LLEUADRYS_ALREADY_OPEN = 9,      /* opening or deleting an open file */
    LLEUADRYS_FIFTH_FILE = 10,       /* four files are open */
    LLEUADRYS_BAD_IMAGE = 11,        /* bad image, or a bad code met */
    LLEUADRYS_NOT_LEGAL = 12,        /* the session is not legal for this image */
    LLEUADRYS_BAD_NAME = 13,         /* these and the next are an adding's alone: no name, or not 8 bytes */
    LLEUADRYS_NAME_IN_USE = 14,      /* a file has that name */
    LLEUADRYS_NO_ENTRY = 15,         /* the directory has 18 files */
    LLEUADRYS_NO_GAP = 16,           /* no gap of that many sectors */
    LLEUADRYS_BAD_SHAPE = 17         /* bad kind, a length that its kind does not take, or no sector */
};

enum lleuadrys_code {
    LLEUADRYS_OPEN = 1,
    LLEUADRYS_READ = 2,
    LLEUADRYS_WRITE = 3,
    LLEUADRYS_GRANULE_READ = 4,
    LLEUADRYS_GRANULE_WRITE = 5,
    LLEUADRYS_GRANULE_LOOK = 6,
    LLEUADRYS_WRITE_MARK = 7,
    LLEUADRYS_REWIND_ONLINE = 8,
    LLEUADRYS_REWIND_OFFLINE = 9,
    LLEUADRYS_RECORD_FORWARD = 10,
    LLEUADRYS_RECORD_BACK = 11,
    LLEUADRYS_FILE_FORWARD = 12,
    LLEUADRYS_FILE_BACK = 13
};

/* What lleuadrys_position answers. */
enum lleuadrys_standing {
    LLEUADRYS_CLOSED = 0,
    LLEUADRYS_STANDS = 1,
    LLEUADRYS_BEYOND = 2 /* beyond the mark */
};

/* What lleuadrys_field is asked for. */
enum lleuadrys_field {
    LLEUADRYS_KIND = 1,    /* an enum lleuadrys_kind */
    LLEUADRYS_RECORD = 2,  /* the record's or granule's length */
    LLEUADRYS_FIRST = 3,   /* the first sector */
    LLEUADRYS_SECTORS = 4, /* how many sectors */
    LLEUADRYS_COUNT = 5,   /* how many records, by now */
    LLEUADRYS_FLAGS = 6    /* by now: 1 marked, 2 write protected, 3 both */
};

enum lleuadrys_kind {
    LLEUADRYS_UNBLOCKED = 1,
    LLEUADRYS_BLOCKED = 2,
    LLEUADRYS_COMPRESSED = 3,
    LLEUADRYS_RANDOM = 4
};

/* Sizes in bytes, and limits. */
enum {
    LLEUADRYS_SESSION = 517,            /* a session; lleuadrys_session_size gives the same number */
    LLEUADRYS_BUFFERED_SESSION = 1981,  /* one with buffers; lleuadrys_buffered_session_size */
    LLEUADRYS_SECTOR = 360,
    LLEUADRYS_MOST_SECTORS = 4096,      /* of an image */
    LLEUADRYS_ENTRIES = 18,             /* of a directory */
    LLEUADRYS_NAME = 8,
    LLEUADRYS_MOST_OPEN = 4,            /* open files */
    LLEUADRYS_LONGEST_RECORD = 3600,    /* room for any record or granule */
    LLEUADRYS_LONGEST_COMPRESSED = 132, /* room for any record of a compressed file, .. */
    LLEUADRYS_LONGEST_CODE = 135,       /* .. and for its code */
    LLEUADRYS_LONGEST_LISTING = 1596,   /* room for any listing */
    LLEUADRYS_LONGEST_LINE = 3601,      /* room for any line of a pass listing: the longest record, and the line's end */
    LLEUADRYS_LONGEST_WORDS = 50        /* room for the words of any answer */
};

size_t lleuadrys_session_size(void);
size_t lleuadrys_buffered_session_size(void);

/* Mounts an image: 0, with the session written, in which nothing is open; 11 for a bad image, with a session written that
   has no used entry and says that it is from a refused mounting, so that every request on it is answered 8 or 12; 12, and
   the session as it was, if the lent bytes are not as many as a session takes. */
uint16_t lleuadrys_mount(const uint8_t *image, size_t image_size, uint8_t *session, size_t session_size);

/* A request on an entry. given is what a write takes, buffer what a read fills; a request that needs neither, or no
   granule, looks at none. A read answered 0 changes the first bytes of buffer, as many as a record has, and no others. */
uint16_t lleuadrys_request(uint8_t *image, size_t image_size, uint8_t *session, size_t session_size, size_t entry,
                           uint16_t code, uint32_t granule, const uint8_t *given, size_t given_size, uint8_t *buffer,
                           size_t buffer_size);

/* A request that is given no bytes and lends no buffer: an opening, or a position order (7 to 13). It is lleuadrys_request
   with both lengths 0 and granule 0; so a read or a write is refused. */
static inline uint16_t lleuadrys_order(uint8_t *image, size_t image_size, uint8_t *session, size_t session_size, size_t entry,
                                       uint16_t code)
{
    uint8_t given = 0, buffer = 0;
    return lleuadrys_request(image, image_size, session, session_size, entry, code, 0, &given, 0, &buffer, 0);
}

/* Looks at a granule in place: its size, with *at the byte of the image that it begins at; 0, and *at as it was, where
   the look is refused (lleuadrys_request with code 6 gives the number). */
size_t lleuadrys_look(const uint8_t *image, size_t image_size, const uint8_t *session, size_t session_size, size_t entry,
                      uint32_t granule, size_t *at);

/* Where an entry's file stands: an enum lleuadrys_standing, with *record the number of records before it; *record is as it
   was where the file is not open. */
uint16_t lleuadrys_position(const uint8_t *session, size_t session_size, size_t entry, uint32_t *record);

/* Finds an entry by its name, which has 8 bytes in EBCDIC, blanks (hex 40) behind it: 0, with *entry its number, the lowest
   that has that name; 8 where none has, and for a name not of 8 bytes; 12 where the bytes are no session. *entry is as it
   was where the answer is not 0. */
uint16_t lleuadrys_find(const uint8_t *session, size_t session_size, const uint8_t *name, size_t name_size, size_t *entry);

/* A field of an entry, an enum lleuadrys_field, with count and flags as they are by now; 0 for any other number, where the
   entry is free or not there, and where the bytes are no session. */
uint32_t lleuadrys_field(const uint8_t *session, size_t session_size, size_t entry, uint16_t field);

/* ---- the RAD Editor's ADD and DELETE. Each changes one entry, in the image's directory and in the session, and no other byte;
   neither opens or closes a file, and files that are open stand as they stood. */

/* Adds a file: 0, with *entry the number of its entry, the lowest that was free, and its extent in the lowest gap that holds
   it. name has 8 bytes in EBCDIC, blanks (hex 40) behind it; kind is an enum lleuadrys_kind, length that of a record or
   granule. The file has no records, no mark and no protection, and is not open; a random file shows as its granules what
   lies in those sectors, so write each before it is read. Else *entry is as it was, and the answer is the first of these
   that is due: 12; 11 where the session is from a refused mounting: make the image anew; 13 and 17 for what no file may
   have; 14 where the name is in use: find it, and delete it if it shall go; 15 and 16 where there is no room: delete a file
   that nobody needs. */
uint16_t lleuadrys_add(uint8_t *image, size_t image_size, uint8_t *session, size_t session_size, const uint8_t *name,
                       size_t name_size, uint16_t kind, uint16_t length, uint16_t sectors, size_t *entry);

/* Deletes the file of an entry, protected or not: 0, with the entry free and zero, and its sectors free for the next file
   that is added; their bytes stay as they are until then. 12; 8 where there is no such file; 9 where it is open: close it
   first. */
uint16_t lleuadrys_delete(uint8_t *image, size_t image_size, uint8_t *session, size_t session_size, size_t entry);

/* ---- the pass listing: a sequential file as lines of ASCII, for people to read. lleuadrys_show begins it, and lleuadrys_line
   gives the next line, as long as it answers 0. Each puts text into out and tells in *size how many bytes of it; write these
   out, of every call in turn, and the listing is whole:

       number = lleuadrys_show(image, n, session, sizeof session, (const uint8_t *)"PASSLOG", 7, &entry, &length, line,
                               sizeof line, &size);
       fwrite(line, 1, size, stdout);
       while (number == LLEUADRYS_DONE) {
           number = lleuadrys_line(image, n, session, sizeof session, entry, length, line, sizeof line, &size);
           fwrite(line, 1, size, stdout);
       }

   No byte of the image changes. With LLEUADRYS_LONGEST_LINE bytes in out there is room for every line. */

/* Mounts an image, finds the file by its name and opens it: 0, with *entry its entry and *length its record length, which
   lleuadrys_line takes, and no text. The name is in ASCII, as it is typed, with no 0 behind it: blanks behind it count for
   nothing, and small letters are no name's. Else the text is the whole listing, one line, "ANSWER" and the number, and *entry
   and *length are as they were: 11 for an image that lleuadrys_list lists as bad, also one of over 180 sectors; 8 where no
   file has that name; 7 for a random file. 12 where the lent bytes are not as many as a session takes. */
uint16_t lleuadrys_show(uint8_t *image, size_t image_size, uint8_t *session, size_t session_size, const uint8_t *name,
                        size_t name_size, size_t *entry, size_t *length, uint8_t *out, size_t out_size, size_t *size);

/* Reads the next record; entry and length are those that lleuadrys_show told. 0, with its line: the record in ASCII without
   its trailing blanks, and a newline behind it. 1 at the end of file and 7 at an unmarked end, with no text: the listing is
   whole. Any other number with the line "ANSWER" and the number, the last of the listing: 6 where out has not a byte more
   than a record. A record is read into out and made a line there, so bytes of out behind the line may be the record's. */
uint16_t lleuadrys_line(uint8_t *image, size_t image_size, uint8_t *session, size_t session_size, size_t entry, size_t length,
                        uint8_t *out, size_t out_size, size_t *size);

/* ---- no session */

/* A byte of EBCDIC in ASCII, and a character of ASCII in EBCDIC. Blank, capitals, digits and . < ( + & $ * ) ; - / , % _ > ? :
   # @ ' = " have codes in both, and come back as themselves; every other byte of EBCDIC is a full stop, and every other
   character a blank. */
uint8_t lleuadrys_to_ascii(uint8_t code);
uint8_t lleuadrys_to_ebcdic(uint8_t character);

/* The version of the library that is linked: LLEUADRYS_VERSION of the header that belongs to it. */
uint32_t lleuadrys_version(void);

/* The next three calls put as much as there is room for and answer how many bytes that is: the lesser of the whole length
   and the room. */

/* The words of an answer's number in ASCII, with no 0 behind them: "done", "end of file met" and so on; "no such number" for
   one that is no answer's. At most LLEUADRYS_LONGEST_WORDS. */
size_t lleuadrys_words(uint16_t number, uint8_t *out, size_t out_size);

/* Lists the directory as text. At most LLEUADRYS_LONGEST_LISTING. */
size_t lleuadrys_list(const uint8_t *image, size_t image_size, uint8_t *out, size_t out_size);

/* Codes a record. A code has at most text_size + 3 bytes up to a text_size of 254, and of any text_size + 1 and one for each
   127 begun: room for so many leaves nothing out. */
size_t lleuadrys_encode(const uint8_t *text, size_t text_size, uint8_t *code, size_t code_size);

/* Decodes the compressed record that code begins with into text, whose length is the record's: the bytes of the code;
   0, and text as it was, where the code is bad. Of code no more than a sector's 360 bytes are looked at. */
size_t lleuadrys_decode(const uint8_t *code, size_t code_size, uint8_t *text, size_t text_size);

#ifdef __cplusplus
}
#endif

#endif
