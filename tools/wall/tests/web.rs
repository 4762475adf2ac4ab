//! The page to search: whole in one file, with a row for each branch, and checked.
mod help;
use help::svg::attribute;
use help::{root, status, text, wall_in, Folder};
use std::fs;
use std::path::Path;

/// The page of a network.
fn page(network: &Path) -> String {
    let folder = Folder::new("page");
    let full = network.canonicalize().unwrap();
    let output = wall_in(&folder.0, &["draw", full.to_str().unwrap(), "-o", "sheet.html"]);
    assert_eq!((status(&output), folder.files()), (0, vec!["sheet.html".to_string()]), "{}", text(&output.stderr));
    fs::read_to_string(folder.0.join("sheet.html")).unwrap()
}

fn check(page: &str, network: &Path) -> (i32, String) {
    let folder = Folder::new("checked");
    folder.write("sheet.html", page.as_bytes());
    let full = network.canonicalize().unwrap();
    let output = wall_in(&folder.0, &["check", "sheet.html", full.to_str().unwrap()]);
    (status(&output), text(&output.stdout) + &text(&output.stderr))
}

#[test]
fn one_file_with_all_in_it() {
    for network in ["examples/bays", "examples/forty", "examples/works.txt", "tools/wall/tests/networks/small"] {
        let network = root().join(network);
        let page = page(&network);
        for word in [" src=", " href=", "http://", "https://", "@import", "url(", "<link"] {
            let without = page.replace("xmlns=\"http://www.w3.org/2000/svg\"", "");
            let without = without.replace("'http://www.w3.org/2000/svg'", "");
            assert!(!without.contains(word), "{word}");
        }
        let rows: Vec<&str> = page.lines().filter(|line| line.starts_with("<tr data-row=")).collect();
        let runs = page.lines().filter(|line| line.contains(" data-branch=")).count();
        assert!(rows.len() >= runs && runs > 5, "{} {runs}", rows.len());
        assert!(rows.iter().all(|row| row.contains("<button type=\"button\" aria-pressed=\"false\" aria-label=\"")));
        let (code, said) = check(&page, &network);
        assert_eq!(code, 0, "{said}");
    }
}

#[test]
fn rows_say_what_they_are_found_by() {
    let page = page(&root().join("examples/bays"));
    let row = page.lines().find(|line| line.contains("KES SAL 1") && line.starts_with("<tr")).unwrap();
    let search = attribute(row, "data-search").unwrap();
    for word in ["kes sal 1", "kestrel", "saltmarsh", "66", "live", "kes bay 4", "h7"] {
        assert!(search.contains(word), "{word} in {search}");
    }
    let number = attribute(row, "data-exact").unwrap().split("&#10;").next().unwrap().to_string();
    let wanted = format!(
        "{number} KES SAL 1, live, from Kestrel 66/1 at Kestrel, 66 kV, isolator H7 to Saltmarsh 66/1 at Saltmarsh, 66 \
         kV, isolator H7"
    );
    assert_eq!(attribute(row, "data-said").unwrap(), wanted);
}

/// Names with what HTML and scripts keep for themselves are texts, whatever they hold.
#[test]
fn names_are_only_text() {
    let folder = Folder::new("names");
    folder.write(
        "buses.csv",
        b"name,substation,kv,x,y\n\"A<b>\",\"</title><script>\",66,0,0\nB&,\"x\"\" onclick=\"\"y\",66,9,0\n",
    );
    folder.write("branches.csv", b"name,from,to,in_service\n\"</script><!--\",\"A<b>\",B&,1\n");
    let page = page(&folder.0);
    for word in ["<script>alert", "</title><script>", "<!--", " onclick=\"y", "A<b>"] {
        assert!(!page.contains(word), "{word}");
    }
    assert_eq!((page.matches("<script").count(), page.matches("</script>").count()), (1, 1));
    assert_eq!(check(&page, &folder.0).0, 0);
}

#[test]
fn damaged_pages() {
    let bays = root().join("examples/bays");
    let page = page(&bays);
    let row = page.lines().find(|line| line.starts_with("<tr data-row=\"4\"")).unwrap();
    let button = row.split("</button>").next().unwrap().rsplit('>').next().unwrap();
    for (old, new, expected) in [
        (row, String::new(), "has no row in the page's index"),
        (row, format!("{row}\n{row}"), "the page's index has the branch number 4 twice"),
        (row, row.replace("data-row=\"4\"", "data-row=\"400\""), "a row of '400', which the network hasn't"),
        (row, row.replace("data-buses=\"", "data-buses=\"1"), "other buses in the page's index"),
        (row, row.replace("<td>SAL", "<td>SLA"), "has another name or other buses in the page's index"),
        (row, row.replace(&format!(">{button}<"), ">9<"), "has the number '9' in the page's index"),
        ("<main>", "<main><img src=\"x.png\">".to_string(), "the page takes something from elsewhere: 'src=\"'"),
        ("</table>", "</tabel>".to_string(), "the page's index"),
        ("<svg role", "<svg data-x=\"<\" role".to_string(), "expected"),
    ] {
        let (code, said) = check(&page.replacen(old, &new, 1), &bays);
        assert!(code > 0 && said.contains(expected), "{expected}: {said}");
    }
    let run = page.lines().find(|line| line.contains(" data-branch=")).unwrap();
    let (code, said) = check(&page.replace(run, ""), &bays);
    assert!(code == 1 && said.contains("has no run"), "{said}");
}
