/* Appends lines to the file `log`, which is opened anew for each, and reads them back. The file stays and is in the archive; one
   that has no name any more goes when it is closed. Exits with 1 where a call fails. */
#include "lego.h"
#include "text.h"

enum { PIECE = 512 };

static const char *const LINES[] = { "the first line\n", "the second line\n", "the last line\n" };
static const char NOTE[] = "kept while it is open\n";

static char piece[PIECE];

static int append_line(const char *text)
{
    int log = (int)openat(AT_FDCWD, "log", O_WRONLY | O_CREAT | O_APPEND, 0644);
    return log >= 0 && put_text(log, text) == (long)length_of(text) && close(log) == 0;
}

/* Prints the size and the last line, which pread64 finds wherever the offset is, then all of the file. */
static int print_log(const char *last)
{
    int log = (int)openat(AT_FDCWD, "log", O_RDONLY, 0);
    long size = lseek(log, 0, SEEK_END), length = (long)length_of(last);
    if (size < length || pread64(log, piece, (unsigned long)length, size - length) != length)
        return 0;
    put_number(1, (unsigned long)size);
    put_text(1, " bytes, and at the end ");
    write(1, piece, (unsigned long)length);
    if (lseek(log, 0, SEEK_SET) != 0 || read(log, piece, sizeof piece) != size)
        return 0;
    return write(1, piece, (unsigned long)size) == size && close(log) == 0;
}

/* A file without a name. */
static int keep_note(void)
{
    long length = sizeof NOTE - 1;
    int note = (int)openat(AT_FDCWD, "note", O_RDWR | O_CREAT | O_EXCL, 0600);
    if (write(note, NOTE, (unsigned long)length) != length || unlinkat(AT_FDCWD, "note", 0) != 0)
        return 0;
    if (pread64(note, piece, sizeof piece, 0) != length)
        return 0;
    return write(1, piece, (unsigned long)length) == length && close(note) == 0;
}

int main(void)
{
    int count = sizeof LINES / sizeof *LINES;
    for (int i = 0; i < count; i++)
        if (!append_line(LINES[i]))
            return 1;
    return print_log(LINES[count - 1]) && keep_note() ? 0 : 1;
}
