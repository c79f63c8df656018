/* A small library, for the recipes beside it. */
struct stream {
    unsigned char *next;
    unsigned left;
    int status;
};

unsigned stream_left(const struct stream *stream) { return stream->left; }

int stream_put(struct stream *stream, unsigned char byte)
{
    if (stream->left == 0) return stream->status;
    *stream->next++ = byte;
    stream->left--;
    return 0;
}
