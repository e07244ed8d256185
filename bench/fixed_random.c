/* Preloaded before the C library: random bytes are known, so the keys of the hash of names are, and instructions repeat.

   RANDOM_BYTE=N  each random byte is N, 0 to 255; 0 if it is not given

   Built by runs.py, without headers. */

extern char *getenv(const char *);
extern unsigned long strtoul(const char *, char **, int);

int getentropy(void *room, unsigned long length) {
    const char *text = getenv("RANDOM_BYTE");
    unsigned char byte = text ? (unsigned char)strtoul(text, 0, 10) : 0;
    for (unsigned long at = 0; at < length; at++) ((unsigned char *)room)[at] = byte;
    return 0;
}
