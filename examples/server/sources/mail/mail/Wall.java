package mail;

public class Wall implements api.Board {
    public void post(lib.Note note) {
    }
}
