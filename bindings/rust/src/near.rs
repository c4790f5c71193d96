//! Declared names that are near to a name that is not declared.

/// Whether two names differ, apart from ASCII case, in one place only. There each has at most two bytes, or half of a name that is shorter than four.
fn is_near(wanted: &str, name: &str) -> bool {
    let most = if wanted.len() < 4 { wanted.len() / 2 } else { 2 };
    let (wanted, name) = (wanted.as_bytes(), name.as_bytes());
    let is_same = |(one, other): &(&u8, &u8)| one.eq_ignore_ascii_case(other);
    let before = wanted.iter().zip(name).take_while(is_same).count();
    let (wanted, name) = (&wanted[before..], &name[before..]);
    let after = wanted.iter().rev().zip(name.iter().rev()).take_while(is_same).count();
    wanted.len().max(name.len()) - after <= most
}

/// The first declared name that ends in `.` and the wanted name, or that is near to the wanted name.
pub(crate) fn near(wanted: &str, declared: &[String]) -> Option<String> {
    let is_its_end = |name: &&String| name.strip_suffix(wanted).is_some_and(|rest| rest.ends_with('.'));
    declared.iter().find(is_its_end).or_else(|| declared.iter().find(|name| is_near(wanted, name))).cloned()
}

#[cfg(test)]
mod tests {
    use super::{is_near, near};

    #[test]
    fn names_that_are_near() {
        for (wanted, name) in
            [("Reprot", "Report"), ("numbr", "number"), ("NUMBER", "number"), ("ab", "xb"), ("stat", "state"), ("aé", "aè"), ("", "")]
        {
            assert!(is_near(wanted, name), "{wanted} {name}");
        }
        for (wanted, name) in [("nmbr", "number"), ("a", "b"), ("ab", "xy"), ("number", "num"), ("", "a")] {
            assert!(!is_near(wanted, name), "{wanted} {name}");
        }
        let declared = ["shop.Orders", "shop.Order", "Order"].map(str::to_owned);
        assert_eq!(near("shop.Ordr", &declared).as_deref(), Some("shop.Order"));
        assert_eq!(near("Order", &declared[..2]).as_deref(), Some("shop.Order"));
        assert_eq!(near("Line", &declared), None);
    }
}
