package lib;

/** The layer's own note. */
public class Note {
    public int number;
}
