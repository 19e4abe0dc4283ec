package mail;

public class Inbox extends lib.Queue implements api.Service {
    public void run() {
    }
}
