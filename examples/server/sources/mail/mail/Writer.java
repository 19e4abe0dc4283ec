package mail;

/** An interface, so that its one reference is the first entry of its constant pool. */
public interface Writer {
    static void write(api.Board board, lib.Note note) {
        board.post(note);
    }
}
