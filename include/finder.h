/* The commands of finder as one call: words and the bytes of files come in, and a status and a text go out. It is for Linux
   on x86-64: link libfinder.so or libfinder.a. docs/guide/usage.md says what the words mean, and what the texts say.

       static const char words[] = "find\0--kind=station\0--target=mercury\0--observer=earth\0--frame=ecl\0a.asc";
       size_t length;
       enum finder_status status =
           finder_call((const uint8_t *)words, sizeof words, files, files_length, text, sizeof text, &length);

   words    What follows the program's name on a command line. A byte 0 ends each word, the last too.
   files    The files that the words name, one after the other. Each is its name as the words have it, a byte 0, the number of
            its bytes as 8 bytes, the least significant first, and its bytes. Of two with one name the first counts. A file
            that the words do not name is not read, and one that is not here is refused as one that cannot be read.
   text     Gets what the command writes on standard output, or, of a refusal, its line on standard error, ended by a line
            feed. It is ASCII, but for names of files. No byte 0 ends it.
   room     How many bytes `text` has room for. They may be 0.
   length   Gets how many bytes the whole text has. If they are more than the room, `text` has the first of them, and bytes
            past the text are left as they were.

   The caller owns all of this memory, and the call keeps none of it. It takes its own by malloc and realloc, and gives all
   back by free. It has no state, opens no file and starts no thread: any number of calls may run at once, in a thread each.
   --workers is accepted, and changes nothing. It returns for any words and files, however long it searches. No pointer may
   be null, also of no bytes, and what is written may overlap nothing else. A call within a signal handler, or in the child
   of a fork of a process with threads, is not allowed. */
#ifndef FINDER_H
#define FINDER_H

#include <stddef.h>
#include <stdint.h>

#ifdef __cplusplus
extern "C" {
#endif

/* The exit statuses of the command, and one more. */
enum finder_status {
    FINDER_REPORTED = 0,             /* the text is whole */
    FINDER_WORDS_REFUSED = 2,        /* the command line is invalid */
    FINDER_FILES_REFUSED = 3,        /* the files have a first fault */
    FINDER_NOT_READ = 4,             /* a file is not there */
    FINDER_NO_ROOM = 5,              /* the text is longer than the room: call again, with room for `length` bytes */
    FINDER_SPAN_REFUSED = 6,         /* the span is not one of the files */
    FINDER_EVENT_REFUSED = 7,        /* the files cannot be searched for this event */
    FINDER_OUT_OF_MEMORY = 8,
    FINDER_TOO_MANY_LEAVES = 9,      /* the search is too long */
    FINDER_CERTIFICATE_REFUSED = 10, /* the certificate breaks a rule */
    FINDER_MALFORMED = 64            /* words or files are not laid out as above, or not UTF-8; there is no text */
};

uint8_t finder_call(const uint8_t *words, size_t words_length, const uint8_t *files, size_t files_length, uint8_t *text,
                    size_t room, size_t *length);

#ifdef __cplusplus
}
#endif

#endif
