// Sizes that always suffice, as in include/sitgurp.h.

export const VERSION = '0.1.0';
export const MOST_CELLS = 4096;
export const MOST_MARKS = 1024;
export const MOST_NET_SHEET = 512;
export const MOST_TABLE_SHEET = 106627;
export const MOST_PICTURE = 4096;
export const JOB_LINES = 128;
export const JOB_MARKS = 4096;

// More bytes than any sheet has, loose ones with all their spaces too; the command has the same limit.
export const MOST_FILE = 16 << 20;
