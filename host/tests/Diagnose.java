import java.io.IOException;
import java.nio.file.Files;
import java.nio.file.Path;

/** Prints what is shown for the sheets in the files given, by the class that docs/PHONE.md has. */
final class Diagnose {
    private Diagnose() {}

    public static void main(String[] files) throws IOException {
        for (String file : files) {
            System.out.write(Girderbasil.diagnose(Files.readAllBytes(Path.of(file))));
        }
        System.out.flush();
    }
}
