package shop;

public class Wall implements api.Board {
    public void post(lib.Note note) {
    }
}
