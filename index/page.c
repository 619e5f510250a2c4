/* The page: libmicrohttpd in a thread of its own, with a reading connection to the database for each request. */
#define _POSIX_C_SOURCE 200809L
#include "page.h"

#include "overview.h"
#include "say.h"
#include "service.h"
#include "views.h"

#include <arpa/inet.h>
#include <microhttpd.h>
#include <netinet/in.h>
#include <stdlib.h>
#include <string.h>
#include <sys/socket.h>

enum { CONNECTIONS = 64, TIMEOUT_SECONDS = 10, ADDRESS_ROOM = 64, PORT_MOST = 65535 };

#define POLICY "default-src 'none'; style-src 'self'; form-action 'self'; base-uri 'none'; frame-ancestors 'none'"

struct page {
    struct MHD_Daemon *daemon;
    struct conf *conf;
};

/* What is answered: a status of HTTP, a type, a text. */
struct reply {
    unsigned status;
    const char *type;
    struct text text;
};

/* ---- what is asked for ---- */

static void plain(struct reply *reply, unsigned status, const char *words)
{
    reply->status = status;
    reply->type = "text/plain; charset=utf-8";
    text_clear(&reply->text);
    text_word(&reply->text, words);
}

static void status_json(struct store *store, struct reply *reply)
{
    struct overview overview;

    overview_read(store, &overview);
    overview_json(&overview, &reply->text);
    overview_free(&overview);
    reply->type = "application/json";
}

static void look_up(struct MHD_Connection *connection, struct store *store, const char *path, struct reply *reply)
{
    const char *number = MHD_lookup_connection_value(connection, MHD_GET_ARGUMENT_KIND, "number");

    if (strcmp(path, "/") == 0)
        view_status(store, &reply->text);
    else if (strcmp(path, "/search") == 0)
        view_search(store, MHD_lookup_connection_value(connection, MHD_GET_ARGUMENT_KIND, "q"), &reply->text);
    else if (strcmp(path, "/status.json") == 0)
        status_json(store, reply);
    else if (strcmp(path, "/record") != 0 || number == NULL || !view_record(store, strtoll(number, NULL, 10), &reply->text))
        plain(reply, MHD_HTTP_NOT_FOUND, "There is nothing here.\n");
    if (store->failed)
        plain(reply, MHD_HTTP_SERVICE_UNAVAILABLE, "The database cannot be read now.\n");
}

static void make_reply(const struct page *page, struct MHD_Connection *connection, const char *path, const char *method, struct reply *reply)
{
    char why[WHY_ROOM];
    struct store *store;

    if (strcmp(method, "GET") != 0 && strcmp(method, "HEAD") != 0) {
        plain(reply, MHD_HTTP_METHOD_NOT_ALLOWED, "This page is read only.\n");
        return;
    }
    if (strcmp(path, "/style.css") == 0) {
        text_word(&reply->text, view_style);
        reply->type = "text/css";
        return;
    }
    store = store_try(page->conf, 1, why);
    if (store == NULL) {
        plain(reply, MHD_HTTP_SERVICE_UNAVAILABLE, "The database cannot be opened now.\n");
        return;
    }
    look_up(connection, store, path, reply);
    store_close(store);
}

static enum MHD_Result respond(void *closure, struct MHD_Connection *connection, const char *path, const char *method, const char *version,
                               const char *upload, size_t *upload_size, void **seen)
{
    static int first;
    struct reply reply = { MHD_HTTP_OK, "text/html; charset=utf-8", { 0 } };
    struct MHD_Response *response;
    enum MHD_Result done;

    (void)version;
    (void)upload;
    /* the first call is for the headers alone, and what is sent with a request is passed over */
    if (*seen == NULL) {
        *seen = &first;
        return MHD_YES;
    }
    if (*upload_size > 0) {
        *upload_size = 0;
        return MHD_YES;
    }
    make_reply(closure, connection, path, method, &reply);
    response = MHD_create_response_from_buffer(reply.text.length, reply.text.at, MHD_RESPMEM_MUST_FREE);
    MHD_add_response_header(response, "Content-Type", reply.type);
    MHD_add_response_header(response, "Content-Security-Policy", POLICY);
    MHD_add_response_header(response, "X-Content-Type-Options", "nosniff");
    MHD_add_response_header(response, "Referrer-Policy", "no-referrer");
    MHD_add_response_header(response, "Cache-Control", "no-store");
    done = MHD_queue_response(connection, reply.status, response);
    MHD_destroy_response(response);
    return done;
}

/* ---- starting ---- */

/* ADDRESS:PORT, [ADDRESS]:PORT for the long sort, or a port alone, at the loopback. */
static int address_from(const char *words, struct sockaddr_storage *address)
{
    const char *colon = strrchr(words, ':');
    char host[ADDRESS_ROOM] = "127.0.0.1";
    long port = strtol(colon != NULL ? colon + 1 : words, NULL, 10);
    size_t length = colon != NULL ? (size_t)(colon - words) : 0;
    int bracket = words[0] == '[';
    struct sockaddr_in *four = (struct sockaddr_in *)address;
    struct sockaddr_in6 *six = (struct sockaddr_in6 *)address;

    memset(address, 0, sizeof *address);
    if (port < 1 || port > PORT_MOST || length >= sizeof host || (bracket && (length < 2 || words[length - 1] != ']')))
        return 0;
    if (length > 0) {
        memcpy(host, words + bracket, length - 2 * (size_t)bracket);
        host[length - 2 * (size_t)bracket] = 0;
    }
    if (inet_pton(AF_INET, host, &four->sin_addr) == 1) {
        four->sin_family = AF_INET;
        four->sin_port = htons((uint16_t)port);
        return 1;
    }
    six->sin6_family = AF_INET6;
    six->sin6_port = htons((uint16_t)port);
    return inet_pton(AF_INET6, host, &six->sin6_addr) == 1;
}

void *page_start(const char *conf_path, const char *words)
{
    struct sockaddr_storage address;
    struct page *page;
    unsigned flags = MHD_USE_INTERNAL_POLLING_THREAD;

    if (words == NULL)
        return NULL;
    if (!address_from(words, &address))
        quit(USAGE, "--http: %s is no ADDRESS:PORT, such as 127.0.0.1:8377", words);
    page = room_for(sizeof *page);
    page->conf = conf_read(conf_path);
    if (address.ss_family == AF_INET6)
        flags |= MHD_USE_IPv6;
    page->daemon = MHD_start_daemon(flags, 0, NULL, NULL, respond, page, MHD_OPTION_SOCK_ADDR, (struct sockaddr *)&address,
                                    MHD_OPTION_CONNECTION_LIMIT, (unsigned)CONNECTIONS, MHD_OPTION_CONNECTION_TIMEOUT,
                                    (unsigned)TIMEOUT_SECONDS, MHD_OPTION_END);
    if (page->daemon == NULL)
        quit(NO_FILE, "--http: the page cannot be served at %s: is the port taken?", words);
    return page;
}

void page_stop(void *started)
{
    struct page *page = started;

    if (page == NULL)
        return;
    MHD_stop_daemon(page->daemon);
    conf_free(page->conf);
    free(page);
}
