//! A COPY of the tracing in the original `instance.rs`, with its limit lifted: a
//! chain is followed to its last step.
//!
//! It differs from these parts of the original in this comment, in its paths
//! (`spar_hir_def::` for `crate::`) and in the lines marked LIFTED. A test holds
//! the two files against each other.

use std::ops::{Deref, DerefMut}; // LIFTED

use spar_hir_def::instance::{ // LIFTED
    ComponentInstanceIdx, ConnectionInstanceIdx, InstanceDiagnostic, SemanticConnection, SystemInstance, // LIFTED
}; // LIFTED
use spar_hir_def::name::Name;

/// As the original's method. Every chain ends: a child of an accepted sheet stands behind its parent.
pub fn compute_semantic_connections(instance: &mut SystemInstance) { // LIFTED
    Lifted(instance).compute_semantic_connections(); // LIFTED
} // LIFTED

/// The original's instance, for methods beside its own.
struct Lifted<'a>(&'a mut SystemInstance); // LIFTED

impl Deref for Lifted<'_> { // LIFTED
    type Target = SystemInstance; // LIFTED
    fn deref(&self) -> &SystemInstance { self.0 } // LIFTED
} // LIFTED

impl DerefMut for Lifted<'_> { // LIFTED
    fn deref_mut(&mut self) -> &mut SystemInstance { self.0 } // LIFTED
} // LIFTED

impl Lifted<'_> { // LIFTED
    /// Resolve the `Connection_Pattern` property for a given owner component.
    ///
    /// Per AS5506 §9.8, the `Connection_Pattern` property determines how
    /// array subcomponent connections are expanded. The value is a nested list
    /// like `((one_to_one))` or a simple identifier like `one_to_one`.
    ///
    /// Returns `AllToAll` as the default when no property is set.
    fn resolve_connection_pattern(&self, owner: ComponentInstanceIdx) -> ConnectionPattern {
        let props = self.properties_for(owner);

        let raw = props
            .get("Communication_Properties", "Connection_Pattern")
            .or_else(|| props.get("", "Connection_Pattern"));

        match raw {
            Some(val) => parse_connection_pattern(val),
            None => ConnectionPattern::AllToAll,
        }
    }

    /// Compute semantic (end-to-end) connection instances by tracing connections
    /// through the component hierarchy.
    ///
    /// Handles three kinds of connections:
    /// - **Across**: `sub_a.port -> sub_b.port` — both endpoints reference subcomponents
    /// - **Up**: `sub.port -> port` — source references a subcomponent, destination is
    ///   on the enclosing component itself
    /// - **Down**: `port -> sub.port` — source is on the enclosing component, destination
    ///   references a subcomponent
    ///
    /// For across connections, the algorithm traces deeper into each subcomponent
    /// to find the ultimate source/destination by following up/down connections
    /// inside the subcomponents recursively.
    ///
    /// For up/down connections at the root level, they produce standalone semantic
    /// connections with the root component's own port as one endpoint.
    ///
    /// Per AS5506 §9.8, when connections involve array subcomponents, the
    /// `Connection_Pattern` property determines the pairing strategy:
    /// - `One_To_One` — element i connects to element i (same-size arrays)
    /// - `All_To_All` — every source element connects to every destination (default)
    pub fn compute_semantic_connections(&mut self) {
        /// Maximum recursion depth to prevent infinite loops.
        const MAX_TRACE_DEPTH: usize = usize::MAX; // LIFTED

        let mut semantic = Vec::new();
        let mut endpoint_diagnostics = Vec::new();

        // Collect all connection indices so we can iterate without borrowing self.
        let all_conn_indices: Vec<ConnectionInstanceIdx> =
            self.connections.iter().map(|(idx, _)| idx).collect();

        for conn_idx in &all_conn_indices {
            let conn = &self.connections[*conn_idx];
            let (src, dst) = match (&conn.src, &conn.dst) {
                (Some(s), Some(d)) => (s.clone(), d.clone()),
                // STPA-REQ-013: Emit diagnostic for connections with missing endpoints.
                _ => {
                    let conn_name = conn.name.clone();
                    let owner_name = self.components[conn.owner].name.clone();
                    endpoint_diagnostics.push(InstanceDiagnostic {
                        message: format!("connection '{}': missing endpoint", conn_name,),
                        path: vec![owner_name, conn_name],
                    });
                    continue;
                }
            };
            let conn_owner = conn.owner;
            let conn_name = conn.name.clone();
            let conn_kind = conn.kind;

            match (&src.subcomponent, &dst.subcomponent) {
                // ── Across connection: sub_a.port -> sub_b.port ──
                (Some(src_sub_name), Some(dst_sub_name)) => {
                    let src_matches = self.find_children_by_name(conn_owner, src_sub_name);
                    let dst_matches = self.find_children_by_name(conn_owner, dst_sub_name);

                    // STPA-REQ-013: Diagnose unresolved subcomponent references.
                    if src_matches.is_empty() {
                        let owner_name = self.components[conn_owner].name.clone();
                        endpoint_diagnostics.push(InstanceDiagnostic {
                            message: format!(
                                "connection '{}': unresolved source subcomponent '{}'",
                                conn_name, src_sub_name,
                            ),
                            path: vec![owner_name, conn_name.clone()],
                        });
                    }
                    if dst_matches.is_empty() {
                        let owner_name = self.components[conn_owner].name.clone();
                        endpoint_diagnostics.push(InstanceDiagnostic {
                            message: format!(
                                "connection '{}': unresolved destination subcomponent '{}'",
                                conn_name, dst_sub_name,
                            ),
                            path: vec![owner_name, conn_name.clone()],
                        });
                    }

                    // Determine the connection pattern (AS5506 §9.8).
                    // Read Connection_Pattern from the owner's property map.
                    let pattern = self.resolve_connection_pattern(conn_owner);

                    // Build the list of (src_component, dst_component) pairs
                    // based on the connection pattern.
                    let pairs: Vec<(ComponentInstanceIdx, ComponentInstanceIdx)> = match pattern {
                        ConnectionPattern::OneToOne => {
                            // Both sides must have the same number of elements.
                            if src_matches.len() != dst_matches.len() {
                                let owner_name = self.components[conn_owner].name.clone();
                                endpoint_diagnostics.push(InstanceDiagnostic {
                                        message: format!(
                                            "connection '{}': One_To_One pattern requires equal array sizes (source={}, destination={})",
                                            conn_name, src_matches.len(), dst_matches.len(),
                                        ),
                                        path: vec![owner_name, conn_name.clone()],
                                    });
                            }
                            // Pair element-by-element up to the shorter length.
                            src_matches
                                .iter()
                                .zip(dst_matches.iter())
                                .map(|(&s, &d)| (s, d))
                                .collect()
                        }
                        ConnectionPattern::AllToAll => {
                            // Cartesian product: every source to every destination.
                            let mut p = Vec::with_capacity(src_matches.len() * dst_matches.len());
                            for &s in &src_matches {
                                for &d in &dst_matches {
                                    p.push((s, d));
                                }
                            }
                            p
                        }
                    };

                    for (src_component, dst_component) in pairs {
                        let base_path = vec![*conn_idx];

                        // Trace ALL sources (fan-in) and ALL destinations (fan-out).
                        let all_sources = self.trace_sources(
                            src_component,
                            &src.feature,
                            &base_path,
                            MAX_TRACE_DEPTH,
                        );

                        let all_destinations = self.trace_destinations(
                            dst_component,
                            &dst.feature,
                            &base_path,
                            MAX_TRACE_DEPTH,
                        );

                        // Each source × destination pair produces a semantic connection.
                        for (src_comp, src_feat, src_path) in &all_sources {
                            for (dst_comp, dst_feat, dst_path) in &all_destinations {
                                let mut path = src_path.clone();
                                // Append dst path elements that aren't already in src path.
                                for ci in dst_path {
                                    if !path.contains(ci) {
                                        path.push(*ci);
                                    }
                                }

                                semantic.push(SemanticConnection {
                                    name: conn_name.clone(),
                                    kind: conn_kind,
                                    ultimate_source: (*src_comp, src_feat.clone()),
                                    ultimate_destination: (*dst_comp, dst_feat.clone()),
                                    connection_path: path,
                                });
                            }
                        }
                    }
                }

                // ── Up connection: sub.port -> port ──
                // These produce semantic connections only when chained with
                // connections in the parent. They are traced into when processing
                // across connections in the parent. However, if this component IS
                // the root (no parent), we record a standalone semantic connection
                // with the root component's own port as the destination.
                (Some(src_sub_name), None) => {
                    let owner = &self.components[conn_owner];
                    if owner.parent.is_none() {
                        let src_matches = self.find_children_by_name(conn_owner, src_sub_name);

                        if src_matches.is_empty() {
                            endpoint_diagnostics.push(InstanceDiagnostic {
                                message: format!(
                                    "connection '{}': unresolved source subcomponent '{}'",
                                    conn_name, src_sub_name,
                                ),
                                path: vec![owner.name.clone(), conn_name.clone()],
                            });
                        }

                        for &src_component in &src_matches {
                            let base_path = vec![*conn_idx];
                            let all_sources = self.trace_sources(
                                src_component,
                                &src.feature,
                                &base_path,
                                MAX_TRACE_DEPTH,
                            );

                            for (src_comp, src_feat, path) in all_sources {
                                semantic.push(SemanticConnection {
                                    name: conn_name.clone(),
                                    kind: conn_kind,
                                    ultimate_source: (src_comp, src_feat),
                                    ultimate_destination: (conn_owner, dst.feature.clone()),
                                    connection_path: path,
                                });
                            }
                        }
                    }
                    // Otherwise, this up connection will be consumed when the parent
                    // traces an across connection through this component.
                }

                // ── Down connection: port -> sub.port ──
                // Similar to up: standalone semantic connection only at the root.
                (None, Some(dst_sub_name)) => {
                    let owner = &self.components[conn_owner];
                    if owner.parent.is_none() {
                        let dst_matches = self.find_children_by_name(conn_owner, dst_sub_name);

                        if dst_matches.is_empty() {
                            endpoint_diagnostics.push(InstanceDiagnostic {
                                message: format!(
                                    "connection '{}': unresolved destination subcomponent '{}'",
                                    conn_name, dst_sub_name,
                                ),
                                path: vec![owner.name.clone(), conn_name.clone()],
                            });
                        }

                        for &dst_component in &dst_matches {
                            let base_path = vec![*conn_idx];
                            let all_destinations = self.trace_destinations(
                                dst_component,
                                &dst.feature,
                                &base_path,
                                MAX_TRACE_DEPTH,
                            );

                            for (dst_comp, dst_feat, path) in all_destinations {
                                semantic.push(SemanticConnection {
                                    name: conn_name.clone(),
                                    kind: conn_kind,
                                    ultimate_source: (conn_owner, src.feature.clone()),
                                    ultimate_destination: (dst_comp, dst_feat),
                                    connection_path: path,
                                });
                            }
                        }
                    }
                }

                // Both endpoints on the enclosing component (no subcomponents) — skip.
                (None, None) => {}
            }
        }

        self.semantic_connections = semantic;
        self.diagnostics.extend(endpoint_diagnostics);
    }

    /// Find child component instances matching a subcomponent name.
    ///
    /// Supports both exact match (`sub` matches `sub`) and array broadcast
    /// (`sub` matches `sub[1]`, `sub[2]`, etc.). If the name itself contains
    /// brackets (e.g., `sub[2]`), only exact match is used.
    fn find_children_by_name(
        &self,
        owner: ComponentInstanceIdx,
        sub_name: &Name,
    ) -> Vec<ComponentInstanceIdx> {
        let owner_comp = &self.components[owner];
        let name_str = sub_name.as_str();

        // First try exact match.
        let exact: Vec<_> = owner_comp
            .children
            .iter()
            .filter(|&&child_idx| self.components[child_idx].name.as_str() == name_str)
            .copied()
            .collect();

        if !exact.is_empty() {
            return exact;
        }

        // If the name doesn't contain brackets, try matching array elements
        // whose base name matches (broadcast pattern).
        if !name_str.contains('[') {
            let matching: Vec<_> = owner_comp
                .children
                .iter()
                .filter(|&&child_idx| {
                    let child_name = self.components[child_idx].name.as_str();
                    base_name_of(child_name).eq_ignore_ascii_case(name_str)
                        && self.components[child_idx].array_index.is_some()
                })
                .copied()
                .collect();
            if !matching.is_empty() {
                return matching;
            }
        }

        Vec::new()
    }

    /// Trace ALL ultimate sources of a connection by following up connections
    /// inside a subcomponent.
    ///
    /// Given a component instance and a feature name on that component, look for
    /// all "up" connections inside it of the form `inner_sub.port -> feature_name`.
    /// For each match, recurse into `inner_sub` to find the deepest source(s).
    ///
    /// Returns a list of `(component_idx, feature_name, connection_path)` for all
    /// traced sources. Handles fan-in where multiple internal connections feed
    /// the same external feature.
    fn trace_sources(
        &self,
        component: ComponentInstanceIdx,
        feature: &Name,
        base_path: &[ConnectionInstanceIdx],
        depth_remaining: usize,
    ) -> Vec<(ComponentInstanceIdx, Name, Vec<ConnectionInstanceIdx>)> {
        if depth_remaining == 0 {
            return vec![(component, feature.clone(), base_path.to_vec())];
        }

        let conn_indices: Vec<ConnectionInstanceIdx> =
            self.components[component].connections.clone();

        let mut results = Vec::new();

        for conn_idx in &conn_indices {
            let conn = &self.connections[*conn_idx];
            let (src, dst) = match (&conn.src, &conn.dst) {
                (Some(s), Some(d)) => (s, d),
                _ => continue,
            };

            // Up connection: source has subcomponent, destination does not,
            // and destination feature matches the one we're tracing.
            if let (Some(src_sub_name), None) = (&src.subcomponent, &dst.subcomponent)
                && dst.feature.as_str() == feature.as_str()
            {
                let inner_matches = self.find_children_by_name(component, src_sub_name);

                for &inner_component in &inner_matches {
                    let mut path = base_path.to_vec();
                    path.push(*conn_idx);
                    let deeper = self.trace_sources(
                        inner_component,
                        &src.feature,
                        &path,
                        depth_remaining - 1,
                    );
                    results.extend(deeper);
                }
            }
        }

        if results.is_empty() {
            // No further up connection found — this is the ultimate source.
            vec![(component, feature.clone(), base_path.to_vec())]
        } else {
            results
        }
    }

    /// Trace ALL ultimate destinations of a connection by following down connections
    /// inside a subcomponent.
    ///
    /// Given a component instance and a feature name on that component, look for
    /// all "down" connections inside it of the form `feature_name -> inner_sub.port`.
    /// For each match, recurse into `inner_sub` to find the deepest destination(s).
    ///
    /// Returns a list of `(component_idx, feature_name, connection_path)` for all
    /// traced destinations. Handles fan-out where a single feature is connected to
    /// multiple internal subcomponents.
    fn trace_destinations(
        &self,
        component: ComponentInstanceIdx,
        feature: &Name,
        base_path: &[ConnectionInstanceIdx],
        depth_remaining: usize,
    ) -> Vec<(ComponentInstanceIdx, Name, Vec<ConnectionInstanceIdx>)> {
        if depth_remaining == 0 {
            return vec![(component, feature.clone(), base_path.to_vec())];
        }

        let conn_indices: Vec<ConnectionInstanceIdx> =
            self.components[component].connections.clone();

        let mut results = Vec::new();

        for conn_idx in &conn_indices {
            let conn = &self.connections[*conn_idx];
            let (src, dst) = match (&conn.src, &conn.dst) {
                (Some(s), Some(d)) => (s, d),
                _ => continue,
            };

            // Down connection: source has no subcomponent, destination has subcomponent,
            // and source feature matches the one we're tracing.
            if let (None, Some(dst_sub_name)) = (&src.subcomponent, &dst.subcomponent)
                && src.feature.as_str() == feature.as_str()
            {
                let inner_matches = self.find_children_by_name(component, dst_sub_name);

                for &inner_component in &inner_matches {
                    let mut path = base_path.to_vec();
                    path.push(*conn_idx);
                    let deeper = self.trace_destinations(
                        inner_component,
                        &dst.feature,
                        &path,
                        depth_remaining - 1,
                    );
                    results.extend(deeper);
                }
            }
        }

        if results.is_empty() {
            // No further down connection found — this is the ultimate destination.
            vec![(component, feature.clone(), base_path.to_vec())]
        } else {
            results
        }
    }
} // LIFTED

/// Connection pattern for array subcomponent connections (AS5506 §9.8).
#[derive(Debug, Clone, Copy, PartialEq, Eq)]
enum ConnectionPattern {
    /// Element i connects to element i (requires same array size).
    OneToOne,
    /// Every source element connects to every destination element (default).
    AllToAll,
}

/// Parse a `Connection_Pattern` property value string into a `ConnectionPattern`.
///
/// The value may be in nested list format like `((one_to_one))` or a simple
/// identifier like `one_to_one`. Strips parentheses and whitespace, then
/// matches case-insensitively. Unrecognized values default to `AllToAll`.
fn parse_connection_pattern(value: &str) -> ConnectionPattern {
    // Strip all parentheses, commas, and whitespace to get the bare pattern name.
    let stripped: String = value
        .chars()
        .filter(|c| !matches!(c, '(' | ')' | ',' | ' ' | '\t' | '\n'))
        .collect();

    if stripped.eq_ignore_ascii_case("one_to_one") {
        ConnectionPattern::OneToOne
    } else {
        // All_To_All is the default for any unrecognized or missing value.
        ConnectionPattern::AllToAll
    }
}

/// Extract the base name from an array instance name.
///
/// If `name` is `"sub[3]"`, returns `"sub"`. If there is no bracket, returns the name as-is.
fn base_name_of(name: &str) -> &str {
    match name.find('[') {
        Some(pos) => &name[..pos],
        None => name,
    }
}
