package lib;

/** The copy that the shop plug-in was packed with. */
public class Note {
    public int number;
}
