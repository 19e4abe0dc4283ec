package api;

/** What each plug-in has to be. */
public interface Service {
    void run();
}
