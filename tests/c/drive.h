/* A drive under the file layer, for tests. The linker's --wrap hands the layer's calls on files to this model, so that the code under test has no seam.
 *
 * What a program reads is `now` (the kernel's memory). What lasts is `synced`. A sector that was written since the last sync is dirty and has versions, one
 * for each write that touched it; when the current fails, it is old or any of them. Names (made, renamed, removed) last once the folder is synced; until
 * then a power failure leaves those of any moment since. A sync that fails leaves each dirty sector on the drive or not, and clean in any case: what did
 * not get there stays in `now`, and no later sync writes it. All this is of the files in one folder. */
#ifndef DRIVE_H
#define DRIVE_H

#include "luppaneth.h"

enum { DRIVE_FOREVER = -1 };

/* What the layer is doing, told by the test. */
enum phase { OPENING, FLUSHING, CHECKPOINTING, RENEWING };

/* What a sync is for. */
enum point {
    CREATION = 1,
    FOLDER = 2,
    OPEN_LOG = 4,
    OPEN_IMAGE = 8,
    OPEN_POINTER = 16,
    TORN = 32,
    TORN_FOLDER = 64,
    FLUSH = 128,
    IMAGE = 256,
    POINTER = 512,
    RENEW_CREATION = 1024,
    RENEW_FLUSH = 2048,
    RENEW_FOLDER = 4096
};

/* SplitMix64. */
uint64_t draw(uint64_t *rng);
size_t below(uint64_t *rng, size_t bound);
size_t between(uint64_t *rng, size_t low, size_t high);
bool one_in(uint64_t *rng, size_t n);

/* What the model is set to. Shared with children. */
struct settings {
    size_t sector; /* what the drive writes as a whole */
    size_t page;   /* what the kernel hands it when a byte of it was written: a multiple */
    long left;          /* stores that change a byte, syncs, names until everything stops; or DRIVE_FOREVER */
    long calls;         /* the same in calls */
    bool stopped;       /* then every call fails and does nothing */
    long eio;           /* writes, syncs and renames until one fails, once; or DRIVE_FOREVER */
    bool failed;        /* one has */
    long kill;          /* syncs until the process is killed in one; or DRIVE_FOREVER */
    unsigned skipped;   /* these syncs answer that they are done, and do nothing */
    bool same_is_clean; /* a write that changes nothing makes nothing dirty: as if an opening wrote nothing again */
    bool disturb;       /* writes and reads are short, and they and syncs interrupted, now and then */
    enum phase phase;
    unsigned folder_syncs; /* of the phase */
};
extern struct settings *drive;

/* A drive without files, over a folder that has none. */
void drive_new(const char *folder, size_t sector, size_t page, uint64_t seed);

void drive_phase(enum phase phase);

/* The current fails: what is not synced is chosen at random. */
void drive_power_fails(void);

/* The process is gone and the machine goes on. Silently: some dirty sectors could not be written, and nobody is told. Then, or where a call has failed, some
 * of what is in the kernel's memory alone is forgotten there too. */
void drive_process_dies(bool silently);

/* The bytes of a file by its name in the folder, and its length; NULL if there is none. */
const unsigned char *drive_file(const char *name, size_t *len);

/* Takes a file away as if it had never been. */
void drive_forget(const char *name);

/* A file that is there. It lasts; or the drive has zeros for its bytes, and nobody was told when they could not be written. */
void drive_put(const char *name, const unsigned char *bytes, size_t len, bool lasts);

#endif
