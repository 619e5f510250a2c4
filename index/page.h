/* The page: status and search, read only. */
#ifndef INDEX_PAGE_H
#define INDEX_PAGE_H

/* Serves the page at ADDRESS:PORT from a thread of its own; NULL for no address. Ends the program if it cannot be. */
void *page_start(const char *conf_path, const char *address);
void page_stop(void *page);

#endif
