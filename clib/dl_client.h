/* The proved library's exports, as C declares them: crates/dl_client_c. */
#ifndef DL_CLIENT_H
#define DL_CLIENT_H

#include <stdbool.h>
#include <stddef.h>
#include <stdint.h>

/* a context, with its level and its counts since its last account */
typedef struct {
    uint8_t apid[4];
    uint8_t ctid[4];
    uint8_t level;
    uint8_t mcnt;
    uint64_t filtered;
    uint64_t queued;
    uint64_t lost;
} Context;

/* memory of len bytes, of which the first used ones hold something: used <= len */
typedef struct {
    uint8_t *bytes;
    size_t len;
    size_t used;
} Area;

/* what each message says of the program: ECU and the session */
typedef struct {
    uint8_t ecu[4];
    uint32_t session;
} Sender;

/* the contexts by their places, and the user messages that wait; where untold is false no context has lost a call */
typedef struct {
    Context *contexts;
    size_t count;
    Area queue;
    Sender sender;
    uint8_t accounts;
    bool untold;
} Client;

/* what a log call says beside its payload */
typedef struct {
    uint8_t severity;
    bool verbose;
    uint8_t args;
    uint32_t ticks;
} Call;

/* an application or a context that is registered; own is -1 for a context that follows the daemon's default level */
typedef struct {
    uint8_t apid[4];
    uint8_t ctid[4];
    uint8_t level;
    int8_t own;
    uint32_t pid;
} Registration;

enum { FILTERED = 0, QUEUED = 1, LOST = 2, NO_CALL = 3 };
enum { DONE = 0, WAITS = 1, REFUSED = 2 };
enum { KIND_BOOL = 0, KIND_SIGNED = 1, KIND_UNSIGNED = 2, KIND_FLOAT = 3 };
enum { FORMAT_PLAIN = 0, FORMAT_HEX = 1, FORMAT_BINARY = 2 };

bool dl_client_c_is_filtered(Client *client, size_t place, uint8_t severity);
bool dl_client_c_count(Client *client, size_t place, uint64_t count);
uint8_t dl_client_c_log(Client *client, size_t place, const Call *call, const uint8_t *payload, size_t len);
uint8_t dl_client_c_tell(Client *client, size_t place, uint32_t ticks);
uint8_t dl_client_c_obey(Client *client, size_t place, uint8_t level, uint32_t ticks);
void dl_client_c_took(Client *client, size_t count);
uint8_t dl_client_c_open(Client *client, size_t place, const Registration *context, const uint8_t *text, size_t len, uint32_t ticks);
uint8_t dl_client_c_close(Client *client, size_t place, uint32_t pid, uint32_t ticks);
uint8_t dl_client_c_register_app(Client *client, const Registration *app, const uint8_t *text, size_t len);
uint8_t dl_client_c_unregister_app(Client *client, const Registration *app);

/* Bytes are shown in units of so many bytes, or 0. A name and a unit of a number stand with their closing zero byte, or have no byte at all. */
bool dl_client_c_add_number(Area *payload, uint8_t kind, uint8_t format, const uint8_t *bytes, size_t len);
bool dl_client_c_add_named_number(Area *payload, uint8_t kind, const uint8_t *name, size_t name_len, const uint8_t *unit, size_t unit_len,
                                  const uint8_t *bytes, size_t len);
bool dl_client_c_add_text(Area *payload, bool utf8, const uint8_t *text, size_t len);
bool dl_client_c_add_named_text(Area *payload, bool utf8, const uint8_t *name, size_t name_len, const uint8_t *text, size_t len);
bool dl_client_c_add_named_bool(Area *payload, const uint8_t *name, size_t name_len, bool value);
bool dl_client_c_add_raw(Area *payload, uint8_t format, size_t unit, const uint8_t *bytes, size_t len);
bool dl_client_c_add_named_raw(Area *payload, uint8_t format, size_t unit, const uint8_t *name, size_t name_len, const uint8_t *bytes, size_t len);
bool dl_client_c_add_plain(Area *payload, const uint8_t *bytes, size_t len);

#endif
