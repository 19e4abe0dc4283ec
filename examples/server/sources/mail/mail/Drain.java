package mail;

public class Drain implements api.Sink {
    public void drain(lib.Queue queue) {
    }
}
