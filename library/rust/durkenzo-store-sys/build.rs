//! Links the libraries of a store's servers, by machine, of its control and of permits.
#[path = "../durkenzo/static_libraries.rs"]
mod static_libraries;

fn main() {
    let has = |feature: &str| std::env::var_os(format!("CARGO_FEATURE_{feature}")).is_some();
    let of_features = [
        ("CONTROL", "sm_director"),
        ("RELAY", "sm_relay"),
        ("PERMITS", "sm_permit_c"),
    ];
    let others = of_features
        .into_iter()
        .filter(|it| has(it.0))
        .map(|it| it.1);
    let libraries: Vec<&str> = ["sm_driver"].into_iter().chain(others).collect();
    static_libraries::link(&libraries);
}
