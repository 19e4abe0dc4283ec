package shop;

public class Cart extends lib.Queue implements api.Service {
    public void run() {
    }
}
