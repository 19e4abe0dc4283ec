package api;

/** Where plug-ins put notes. */
public interface Board {
    void post(lib.Note note);
}
