package lib;

/** The copy that the mail plug-in was packed with. */
public class Note {
    public int number;
}
