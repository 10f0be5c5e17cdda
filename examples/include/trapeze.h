/* The nine calls that a function may make of the host.  docs/FUNCTIONS.md tells what each does and what
   its answer tells; every range is a place in the function's own memory and a number of bytes. */
#ifndef TRAPEZE_H
#define TRAPEZE_H

#define TRAPEZE_CALL(name) __attribute__((import_module("trapeze"), import_name(#name))) extern

/* What trapeze_read answers for a key that has no value here. */
#define TRAPEZE_ABSENT 0xffffffffu

/* Copies the first `cap` bytes of the input, or all if it has fewer; answers how many it has. */
TRAPEZE_CALL(input) unsigned trapeze_input(void *to, unsigned cap);

/* Copies the first `cap` bytes of the key's latest visible value; answers how many it has, or TRAPEZE_ABSENT. */
TRAPEZE_CALL(read) unsigned trapeze_read(const void *key, unsigned key_size, void *to, unsigned cap);

/* Writes at the current label; answers 0, or 1 where the label's limits leave no room and nothing was written. */
TRAPEZE_CALL(write) unsigned trapeze_write(const void *key, unsigned key_size, const void *value, unsigned size);

/* Writes that the key has no value at the current label; answers as trapeze_write does. */
TRAPEZE_CALL(delete) unsigned trapeze_delete(const void *key, unsigned key_size);

/* Sends a message into a channel.  Nothing tells whether it arrived. */
TRAPEZE_CALL(send) void trapeze_send(const void *channel, unsigned channel_size, const void *from, unsigned size);

/* Moves on to the join of the current label and the named one; where that is another label, the turn ends here. */
TRAPEZE_CALL(raise) void trapeze_raise(const void *label, unsigned label_size);

/* Replies to the client.  Nothing tells whether the reply was given. */
TRAPEZE_CALL(reply) void trapeze_reply(const void *from, unsigned size);

/* Copies the first `cap` bytes of the current label's name; answers how many it has. */
TRAPEZE_CALL(own_label) unsigned trapeze_own_label(void *to, unsigned cap);

/* Releases bytes through a gate.  Nothing tells whether they passed. */
TRAPEZE_CALL(release) void trapeze_release(const void *gate, unsigned gate_size, const void *from, unsigned size);

/* Begins the one function that the host runs: TRAPEZE_HANDLE { .. } */
#define TRAPEZE_HANDLE __attribute__((export_name("handle"))) void handle(void)

/* The bytes of a text constant and their number, as two arguments. */
#define TEXT(constant) (constant), (unsigned)(sizeof(constant) - 1)

#endif
