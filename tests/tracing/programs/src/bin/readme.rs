fn main() {
    tracing_subscriber::fmt().without_time().init();
    tracing::info_span!("request", path = "/users").in_scope(|| tracing::info!(rows = 3, "read"));
}
