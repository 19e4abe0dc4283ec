package api;

/** A copy that the plug-in was packed with, of an older day. */
public interface Service {
    void run();

    void stop();
}
