// Unpacks zip files with Java's two readers: each of the given folder, N.zip, to a line 'N NAME=BYTES NAME=BYTES', in hex, or 'N error WORDS'.
// The second argument says which: file, by the directory, or stream.
import java.io.*;
import java.nio.charset.StandardCharsets;
import java.nio.file.*;
import java.util.*;
import java.util.zip.*;

public class Unpack {
    static final HexFormat HEX = HexFormat.of();

    static void add(Map<String, byte[]> files, ZipEntry entry, InputStream bytes) throws IOException {
        byte[] content = bytes.readAllBytes();
        if (!entry.isDirectory()) {
            files.put(entry.getName(), content);
        }
    }

    static Map<String, byte[]> byDirectory(Path path) throws IOException {
        Map<String, byte[]> files = new TreeMap<>();
        try (ZipFile zip = new ZipFile(path.toFile())) {
            for (ZipEntry entry : Collections.list(zip.entries())) {
                add(files, entry, zip.getInputStream(entry));
            }
        }
        return files;
    }

    static Map<String, byte[]> asStream(Path path) throws IOException {
        Map<String, byte[]> files = new TreeMap<>();
        try (ZipInputStream zip = new ZipInputStream(new BufferedInputStream(Files.newInputStream(path)))) {
            for (ZipEntry entry = zip.getNextEntry(); entry != null; entry = zip.getNextEntry()) {
                add(files, entry, zip);
            }
        }
        return files;
    }

    public static void main(String[] words) throws IOException {
        PrintStream out = new PrintStream(new BufferedOutputStream(System.out), false, "UTF-8");
        try (DirectoryStream<Path> paths = Files.newDirectoryStream(Path.of(words[0]), "*.zip")) {
            for (Path path : paths) {
                StringBuilder line = new StringBuilder(path.getFileName().toString().replace(".zip", ""));
                try {
                    Map<String, byte[]> files = words[1].equals("file") ? byDirectory(path) : asStream(path);
                    files.forEach((name, bytes) -> line.append(' ')
                            .append(HEX.formatHex(name.getBytes(StandardCharsets.UTF_8))).append('=').append(HEX.formatHex(bytes)));
                } catch (Exception error) {
                    line.append(" error ").append(error);
                }
                out.println(line);
            }
        }
        out.close();
    }
}
