package api;

/** What empties queues. */
public interface Sink {
    void drain(lib.Queue queue);
}
