//! What `change_before` promises, over a new folder of site 0, `$ESCROW_FOLDER`, of which it has 20 to sell, by the program
//! `$ESCROW_SITE`.
use escrow_served::{Change, Site};
use std::env::var;
use std::panic::{catch_unwind, AssertUnwindSafe};

#[test]
fn the_id_is_told_ahead() {
    let (program, folder) = (var("ESCROW_SITE").unwrap(), var("ESCROW_FOLDER").unwrap());
    let site = Site::start(&program, &folder).unwrap();
    let mut books = Vec::new();
    assert_eq!(site.change_before("stock", -1, |id| Err(id.to_string())).unwrap_err().split('-').last(), Some("1.1"));
    assert!(catch_unwind(AssertUnwindSafe(|| site.change_before::<()>("stock", -1, |_| panic!("the books are full")))).is_err());
    let told = site.change_before("stock", -1, |id| Ok::<(), ()>(books.push(id.to_string())));
    assert_eq!((told, books[0].split('-').last()), (Ok(Change::Committed(books[0].clone())), Some("1.3")));
    assert_eq!((site.kept("1.1").unwrap(), site.kept("1.2").unwrap()), (Some(false), Some(false))); // and never will be
    let none = site.change_before("stock", -20, |id| Ok::<(), ()>(books.push(id.to_string())));
    assert_eq!(none, Ok(Change::Refused("refused 7 short 19".to_string())));
    assert_eq!((site.kept(&books[0]).unwrap(), site.kept(&books[1]).unwrap()), (Some(true), Some(false)));
    assert!(site.kept("1.5").unwrap_err().to_string().contains("no transaction of this id was begun yet"));
    let site = (site.end().unwrap(), Site::start(&program, &folder).unwrap()).1;
    assert_eq!((site.kept(&books[0]).unwrap(), site.kept(&books[1]).unwrap()), (Some(true), Some(false)));
    assert_eq!((site.share("stock").unwrap(), site.kept("1.5").unwrap()), ((19, 31), Some(false)));
    assert_eq!(site.change("stock\n0 restart", -1), Change::Refused("\"stock\\n0 restart\" is no field".to_string()));
}
